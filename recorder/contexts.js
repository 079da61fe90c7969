// Contexts: their constructors, and the promises of startRendering, suspend and resume.

import {contentOf, isSilent, loseOfLateWrites} from './buffers.js';
import {native} from './native.js';
import {registerParameters} from './nodes.js';
import {quantumOf} from './quanta.js';
import {Recording, entryOfNode, recordingOfContext} from './recording.js';
import {frameOf} from './values.js';
import {quietly, wrapConstructor, wrapPromise} from './wrapping.js';

// What a context is made of. It is asked, and not the page's options, as these may be read once alone.
function shapeOf(context) {
  const {length, sampleRate, destination} = context;
  return {channels: destination.channelCount, length, rate: sampleRate, quantum: quantumOf(context)};
}

function contextCreated(args, context, exception) {
  if (!context) return; // it was refused, so there is nothing to record
  const recording = new Recording(shapeOf(context));
  recording.context = context;
  recordingOfContext.set(context, recording);
  if (!Number.isInteger(recording.rate)) recording.lose('context-rate');
  const shared = {recording, list: recording.main, journal: [], isSteady: true};
  const destination = {...shared, name: 'destination', kind: 'destination', node: context.destination};
  entryOfNode.set(context.destination, destination);
  recording.entries.set('destination', destination);
  recording.listener = {...shared, name: 'listener', kind: 'listener', node: context.listener};
  registerParameters(recording.listener, context.listener);
  context.addEventListener('complete', event => {
    if (event.isTrusted) quietly(context, () => renderingFinished(recording, event.renderedBuffer));
  });
}

// What the page calls from now on belongs to the list of startRendering.
function renderingFinished(recording, buffer) {
  if (recording.phase === 'complete') return;
  if (!recording.start) recording.begin({op: 'startRendering', then: []}); // by another window's method
  recording.phase = 'complete';
  recording.current = recording.start.then;
  recording.now = recording.length;
  loseOfLateWrites(recording);
  recording.rendered = contentOf(buffer).map(samples => Float32Array.from(samples));
  if (isSilent(recording.rendered)) recording.lose('silent');
}

// A call that the browser is sure to reject. Its promise is the browser's own.
function refused(recording, call) {
  recording.emit([call], {name: 'InvalidStateError'});
  return null;
}

function renderingAsked(recording) {
  const call = {op: 'startRendering', then: []};
  if (recording.start) return refused(recording, call);
  recording.begin(call);
  recording.phase = 'rendering';
  recording.beginTurn();
  return {
    fulfilled: buffer => renderingFinished(recording, buffer),
    rejected: reason => recording.outcomes.set(call, reason.name),
  };
}

function suspensionAsked(recording, [seconds]) {
  if (!Number.isFinite(+seconds)) {
    recording.lose('call-left-out');
    return null;
  }
  const call = {op: 'suspend', time: 0, then: []};
  call.time = frameOf(recording, +seconds, call, 'next');
  if (call.time < 0 || call.time <= recording.now - recording.quantum || call.time >= recording.length + recording.quantum)
    return refused(recording, call);
  if (recording.isAskingItself) recording.own.push(call);
  else recording.emit([call]);
  return {
    fulfilled() {
      recording.phase = 'suspended';
      recording.current = call.then;
      recording.now = Math.round(native.currentTime.call(recording.context) * recording.rate);
      // Where the browser took another quantum, by a rounding of the time, the script takes that one too.
      if (Math.ceil(call.time / recording.quantum) * recording.quantum !== recording.now) call.time = recording.now;
    },
    rejected: reason => recording.outcomes.set(call, reason.name),
  };
}

function resumptionAsked(recording) {
  const call = {op: 'resume'};
  if (recording.phase === 'before' && !recording.isRealTime) return refused(recording, call);
  recording.emit([call]);
  if (recording.phase === 'suspended') {
    recording.phase = 'rendering';
    recording.beginTurn();
  }
  return {fulfilled() {}, rejected: reason => recording.outcomes.set(call, reason.name)};
}

export function wrapContexts() {
  wrapConstructor('OfflineAudioContext', contextCreated);
  const offline = native.OfflineAudioContext.prototype;
  wrapPromise(offline, 'startRendering', renderingAsked);
  wrapPromise(offline, 'suspend', suspensionAsked);
  wrapPromise(offline, 'resume', resumptionAsked);
  wrapPromise(BaseAudioContext.prototype, 'resume', resumptionAsked);
}
