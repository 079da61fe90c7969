// Sources: start and stop, and the buffer and the loop of a buffer source.

import {acquireBuffer, bufferName, bufferOfCopy, bufferOfVersion} from './buffers.js';
import {scheduleEnding} from './endings.js';
import {journal} from './journal.js';
import {entryOfNode} from './recording.js';
import {frameOf, framePlace, isGiven, schedulePlace} from './values.js';
import {takenArgument, wrapAttribute, wrapMethod} from './wrapping.js';

// A time of start or stop. One that has passed means now, so its fraction has no meaning.
function scheduledFrame(recording, seconds, call, rule) {
  const place = seconds * recording.rate;
  if (place >= 0 && place < recording.now) return Math.floor(place);
  return frameOf(recording, seconds, call, rule, (rule === 'next' ? schedulePlace : framePlace)(recording, seconds));
}

// The later of a time in seconds and now: when a source really starts or stops.
const notBeforeNow = (recording, seconds) => Math.max(isGiven(seconds) ? +seconds : 0, recording.now / recording.rate);

// Puts calls that belong before a start at their place: where the start was in the same list, no frame lies
// between, so the order may change. Else they stand where they were made, and waplay refuses them by `feature`.
function placeBeforeStart(entry, calls, exception, feature) {
  const {recording, startCall, startList} = entry;
  const isSameTime = startList === recording.current && (recording.phase !== 'rendering' || recording.sameTurn);
  if (startCall && isSameTime && !exception) {
    startList.splice(startList.indexOf(startCall), 0, ...calls);
    recording.lose('reordered', calls[calls.length - 1]);
    return;
  }
  recording.emit(calls, exception);
  if (!startCall || exception) return;
  entry.isBakeable = false; // a copy would have the change from the start on
  recording.lose(feature, calls[calls.length - 1]);
}

function bufferSet(node, buffer, exception) {
  const entry = entryOfNode.get(node);
  if (!entry || entry.recording.leavesOut(exception)) return;
  const recording = entry.recording, calls = [];
  const call = {op: 'setBuffer', node: entry.name, buffer: null};
  if (isGiven(buffer)) call.buffer = bufferName(recording, buffer, calls);
  calls.push(call);
  placeBeforeStart(entry, calls, exception, 'late-buffer');
  if (exception) return;
  if (isGiven(buffer) && buffer.sampleRate !== recording.rate) recording.lose('resampling', call);
  const bufferList = recording.current;
  Object.assign(entry, {buffer: isGiven(buffer) ? buffer : null, bufferCall: call, bufferList});
  if (entry.startCall && entry.buffer) sourceAcquires(entry);
}

// The source acquires the content of its buffer, and so does its copy, if it is baked later.
function sourceAcquires(entry) {
  const {recording, buffer} = entry;
  const version = acquireBuffer(recording, entry, buffer), {floats} = version;
  entry.channels = buffer.numberOfChannels;
  entry.widths = [...(entry.widths || []), buffer.numberOfChannels];
  journal(entry, copy => { copy.buffer = bufferOfCopy(buffer, floats); }, copy => { copy.buffer = bufferOfVersion(version, buffer.sampleRate); });
}

function sourceStarted(node, [when, offset, duration], result, exception) {
  const entry = entryOfNode.get(node);
  if (!entry || entry.recording.leavesOut(exception)) return;
  const recording = entry.recording, call = {op: 'start', node: entry.name};
  const hasBuffer = entry.kind === 'AudioBufferSourceNode';
  // Other sources begin at the first frame at or after their time; a buffer begins between two frames.
  if (when !== undefined) call.when = scheduledFrame(recording, +when, call, hasBuffer ? 'nearest' : 'next');
  if (hasBuffer && offset !== undefined) call.offset = frameOf(recording, +offset, call, 'nearest');
  if (hasBuffer && duration !== undefined) call.duration = frameOf(recording, +duration, call, 'nearest');
  if (!exception) {
    if (entry.buffer) sourceAcquires(entry);
    const startTime = notBeforeNow(recording, when);
    const further = [offset, duration].slice(0, duration !== undefined ? 2 : offset !== undefined ? 1 : 0);
    journal(entry, copy => copy.start(startTime, ...further));
    Object.assign(entry, {startCall: call, startList: recording.current, startTime, offset, playedFor: duration});
    if (recording.isRealTime) scheduleEnding(entry);
  }
  recording.emit([call], exception);
}

function sourceStopped(node, [when], result, exception) {
  const entry = entryOfNode.get(node);
  if (!entry || entry.recording.leavesOut(exception)) return;
  const recording = entry.recording, call = {op: 'stop', node: entry.name};
  if (when !== undefined) call.when = scheduledFrame(recording, +when, call, 'next');
  if (!exception) {
    const stopTime = notBeforeNow(recording, when);
    journal(entry, copy => copy.stop(stopTime));
    entry.stopTime = stopTime;
    if (recording.isRealTime) scheduleEnding(entry);
  }
  recording.emit([call], exception);
}

function loopSet(name, op, node, value, exception) {
  const entry = entryOfNode.get(node);
  if (!entry || entry.recording.leavesOut(exception)) return;
  const call = {op, node: entry.name};
  call.value = name === 'loop' ? Boolean(value) : frameOf(entry.recording, +value, call, 'nearest');
  if (!exception) journal(entry, copy => { copy[name] = value; });
  placeBeforeStart(entry, [call], exception, 'loop-change');
}

export function wrapSources() {
  // Each browser has start and stop at another place of the chain of prototypes.
  for (const kind of ['AudioScheduledSourceNode', 'ConstantSourceNode', 'OscillatorNode', 'AudioBufferSourceNode']) {
    wrapMethod(globalThis[kind].prototype, 'start', sourceStarted, args => args.map(takenArgument));
    wrapMethod(globalThis[kind].prototype, 'stop', sourceStopped, args => args.map(takenArgument));
  }
  const prototype = globalThis.AudioBufferSourceNode.prototype;
  wrapAttribute(prototype, 'buffer', bufferSet);
  for (const [name, op] of [['loop', 'setLoop'], ['loopStart', 'setLoopStart'], ['loopEnd', 'setLoopEnd']])
    wrapAttribute(prototype, name, (node, value, exception) => loopSet(name, op, node, value, exception));
}
