// Endings: in a real-time piece `ended` events come on the audio clock, as timers do.
//
// Many pages take a note apart once its source has ended. The browser tells of that at some moment while
// rendering runs, so its event is kept back, and the page gets one at the suspension after the source's end.

import {native} from './native.js';
import {entryOfParameter} from './recording.js';
import {addAudioTimer, addTimer, removeTimer} from './clock.js';

// When a source ends, in seconds. Undefined where it does not end, or where only the browser knows when.
export function endOfSource(entry) {
  const {node, kind, startTime, stopTime, playedFor = Infinity, offset = 0} = entry;
  const stop = stopTime === undefined ? Infinity : Math.max(startTime, stopTime);
  let end = Infinity;
  if (kind === 'AudioBufferSourceNode') {
    const [rate, detune] = [node.playbackRate, node.detune].map(parameter => entryOfParameter.get(parameter));
    if (rate.events || detune.events || !entry.isBakeable) return undefined;
    const speed = native.value.call(node.playbackRate) * 2 ** (native.value.call(node.detune) / 1200);
    if (!(speed > 0)) return undefined;
    const length = node.loop ? Infinity : Math.max(0, (entry.buffer ? entry.buffer.duration : 0) - offset);
    end = startTime + Math.min(playedFor, length) / speed;
  }
  return Number.isFinite(Math.min(stop, end)) ? Math.min(stop, end) : undefined;
}

const tellEnded = entry => entry.node.dispatchEvent(new Event('ended'));

// The source was started, or its stop was set: the time of its event is this one from now on.
export function scheduleEnding(entry) {
  if (entry.ending) removeTimer(entry.ending);
  const seconds = endOfSource(entry);
  entry.ending = seconds === undefined ? 0 : addAudioTimer(() => tellEnded(entry), seconds);
}

// Keeps the browser's event back. It is heard before the page's listeners, as the node is new.
export function keepEndingBack(entry) {
  entry.node.addEventListener('ended', event => {
    if (!event.isTrusted) return;
    event.stopImmediatePropagation();
    if (!entry.ending) addTimer(() => tellEnded(entry), 0, false, []);
  });
}
