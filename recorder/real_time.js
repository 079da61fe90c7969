// Real-time pieces: an AudioContext is recorded as an offline one of the length asked for (option `realtime`).
//
// The context is suspended at each time at which a timer of the page is due, the page's callbacks run, and rendering
// goes on. So the page and its sound have one clock, however fast it is rendered.

import {holdClock, nextDue, realTime, runDueTimers} from './clock.js';
import {playElement} from './media.js';
import {native} from './native.js';
import {NODE_KINDS} from './nodes.js';
import {recordingOfContext} from './recording.js';
import {settings} from './settings.js';

const DEFAULT_RATE = 48000;

function pause() {
  recordingOfContext.get(this).lose('real-time-pause');
  return Promise.resolve();
}

// What an AudioContext has besides what every context has.
const members = {
  resume() { return Promise.resolve(); },
  suspend: pause,
  close: pause,
  setSinkId() { return Promise.resolve(); },
  getOutputTimestamp() { return {contextTime: this.currentTime, performanceTime: performance.now()}; },
  get state() { return 'running'; },
  get baseLatency() { return 0; },
  get outputLatency() { return 0; },
  get sinkId() { return ''; },
  get [Symbol.toStringTag]() { return 'AudioContext'; },
};

// Media nodes are only in real-time contexts. Elements are played by sources; for streams a silent gain stands, and the
// script has their refusal.
for (const {op, prefix, feature} of Object.values(NODE_KINDS).filter(kind => kind.prefix === 'media'))
  members[op] = function (given) {
    const isElement = op === 'createMediaElementSource' && given instanceof HTMLMediaElement;
    if (settings.lower && isElement) return playElement(this, given);
    const recording = recordingOfContext.get(this), call = {op, as: recording.newName(prefix)};
    recording.emit([call]);
    recording.lose(feature, call);
    return Object.assign(this.createGain(), {stream: new MediaStream()});
  };

function makeRealTimeContext(shape, newTarget) {
  const {renderSizeHint, sampleRate} = Object(shape), rate = sampleRate ? +sampleRate : DEFAULT_RATE;
  const length = Math.max(1, Math.round(settings.realtime * rate));
  const context = new globalThis.OfflineAudioContext({numberOfChannels: 2, length, sampleRate: rate, renderSizeHint});
  const recording = recordingOfContext.get(context);
  recording.isRealTime = true;
  realTime.contexts.push(recording);
  Object.setPrototypeOf(context, newTarget.prototype); // that of a class of the page, too
  if (realTime.isAwaited) holdClock();
  return context;
}

export function replaceAudioContext() {
  const AudioContext = function (shape) {
    if (!new.target) throw new TypeError('Failed to construct \'AudioContext\': Please use the \'new\' operator');
    return makeRealTimeContext(shape, new.target);
  };
  AudioContext.prototype = Object.create(BaseAudioContext.prototype, {
    ...Object.getOwnPropertyDescriptors(members),
    constructor: {value: AudioContext, writable: true, configurable: true},
  });
  Object.setPrototypeOf(AudioContext, BaseAudioContext);
  globalThis.AudioContext = globalThis.webkitAudioContext = AudioContext;
  const {MediaElementAudioSourceNode} = globalThis; // its constructor takes none but a real-time context
  if (MediaElementAudioSourceNode) globalThis.MediaElementAudioSourceNode = new Proxy(MediaElementAudioSourceNode, {
    construct: (target, [context, options]) => context.createMediaElementSource(Object(options).mediaElement),
  });
}

// Asks for a suspension at the next time at which a timer is due.
function suspendForTimers(recording) {
  const due = Math.max(nextDue(), realTime.milliseconds + 1e-6);
  const {rate, quantum, length, context} = recording;
  const frame = Math.ceil(due / 1000 * rate / quantum - 1e-9) * quantum;
  if (!(frame < length)) return;
  recording.lose('timer-late', null, frame / rate - due / 1000);
  recording.isAskingItself = true;
  const suspension = native.OfflineAudioContext.prototype.suspend.call(context, frame / rate);
  recording.isAskingItself = false;
  suspension.then(async () => {
    realTime.milliseconds = frame / rate * 1000;
    await runDueTimers();
    suspendForTimers(recording);
    native.OfflineAudioContext.prototype.resume.call(context);
  });
}

// Records a real-time piece. It is called once, when the page is loaded and the piece was started.
export async function goRealTime() {
  const recording = realTime.contexts.find(candidate => candidate.main.length) || realTime.contexts[0];
  if (!recording) return false;
  for (const other of realTime.contexts) if (other !== recording && other.main.length) recording.lose('real-time-second');
  holdClock();
  await runDueTimers();
  suspendForTimers(recording);
  await native.OfflineAudioContext.prototype.startRendering.call(recording.context);
  for (const kind of new Set(realTime.losses)) recording.lose(kind);
  return true;
}
