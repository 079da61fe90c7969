// Lowering: automation that a script has no word for becomes curves.
//
// Each function gets a parameter's entry and the event of the page's call before it is in the timeline, and
// gives {calls, keepsCall, kind, failed}: calls to make, whether the page's own call follows them, the kind of
// the loss, and whether the event cannot be rewritten. Null stands for the page's call alone.
//
// An event that was rewritten keeps its `calls`, the list that they stand in, and the frames from `first` to `last`.

import {Timeline, curveValue, rampValue, targetValue} from './automation.js';
import {fixedParameterValue} from './parameters.js';
import {LAST_FRAME, fixedList, isBehindFrame, nearestFixed} from './values.js';

export const CALL_ALONE = null;
const SMALLEST_STEP = 2 ** -26; // a target that is this near counts as reached
const NEAR = 2 ** -25;          // how far the line between two points of a curve may be from the page's value
const BYTES_OF_A_POINT = 9, BYTES_OF_A_CALL = 120; // in a script
const SHORTEST = 256;           // frames of a curve, where there are more of them

const isRamp = event => event.kind === 'ramp' || event.kind === 'exponential';

// A curve from one frame to another, of so many even parts.
function curveCall(parameter, first, last, count, valueAt) {
  const call = {op: 'setValueCurveAtTime', node: parameter.node.name, param: parameter.name};
  const values = Float32Array.from({length: count + 1}, (_, point) => valueAt(first + (last - first) * point / count));
  if (parameter.name === 'delayTime') {
    parameter.recording.lose('delay-fraction', call, 0.5);
    call.values = Array.from(values, seconds => nearestFixed(seconds).whole);
  } else call.values = fixedList(parameter.recording, values, call);
  return Object.assign(call, {time: first, duration: last - first});
}

// Curves from one frame to another. `distanceAt` says how far apart points may lie at a frame, so that the line
// between them is near enough: what bends little needs few points, and one for each frame is always enough. Where
// the distance has doubled or halved, the next curve begins, but none that is short: browsers have faults there.
export function curveCalls(parameter, first, last, valueAt, distanceAt) {
  const calls = [], distance = frame => Math.min(LAST_FRAME, Math.max(1, distanceAt(frame)));
  for (let frame = first; frame < last;) {
    const here = distance(frame);
    let end = frame + 1;
    while (end < last && distance(end + 1) < 2 * here && distance(end + 1) > here / 2) end++;
    if (end - frame < SHORTEST) end = Math.min(last, frame + SHORTEST);
    if (last - end < SHORTEST) end = last;
    const count = Math.ceil((end - frame) / Math.min(here, distance(end)));
    calls.push(curveCall(parameter, frame, end, count, valueAt));
    frame = end;
  }
  return calls;
}

// How far apart points may lie, by the second derivative of the value. A straight line needs none between its ends.
const distanceOfTarget = ({place, timeConstant}, step) => frame =>
  timeConstant * Math.sqrt(8 * NEAR / (step * Math.exp((place - frame) / timeConstant)));

function distanceOfRamp(event, begin, startValue) {
  if (event.kind === 'ramp') return () => Infinity;
  const growth = Math.abs(Math.log(event.value / startValue)) / (event.place - begin);
  return frame => Math.sqrt(8 * NEAR / Math.abs(rampValue(event, begin, startValue, frame))) / growth;
}

// The same for any value, by its differences, and 1 where it jumps or breaks off.
export function distanceOfValues(valueAt, first, last) {
  return frame => {
    const middle = Math.min(Math.max(frame, first + 1), last - 1);
    const bend = Math.abs(valueAt(middle - 1) - 2 * valueAt(middle) + valueAt(middle + 1));
    return Math.sqrt(8 * NEAR / Math.max(bend, 1e-15));
  };
}

function setCall(parameter, frame, value) {
  const call = {op: 'setValueAtTime', node: parameter.node.name, param: parameter.name};
  call.value = fixedParameterValue(parameter, value, call);
  call.time = frame;
  return call;
}

const holdCall = (parameter, frame) => ({op: 'cancelAndHoldAtTime', node: parameter.node.name, param: parameter.name, time: frame});

// Whether an event at a place would change the shape of a later one that is a curve by now: a ramp that begins
// before it, or the target that comes next.
function bendsCurve(parameter, place) {
  const {timeline} = parameter, next = timeline.events[timeline.indexAt(place) + 1];
  return Boolean(next && next.isLowered && next.kind === 'target') ||
    timeline.events.some(event => event.isLowered && isRamp(event) && event.begin <= place && place < event.place);
}

// The curves of a target between two frames.
function targetCalls(parameter, event, first, last) {
  const {startValue, reached} = event;
  const valueAt = frame => frame >= reached ? event.value : targetValue(event, startValue, frame);
  return curveCalls(parameter, first, last, valueAt, distanceOfTarget(event, Math.abs(event.value - startValue)));
}

// A target that runs is cut where another event begins. Gives the calls for that, or null where there is no way.
function cutTarget(parameter, place) {
  const {timeline, recording} = parameter;
  const index = timeline.indexAt(place), event = timeline.events[index], frame = Math.ceil(place);
  if (!event || event.kind !== 'target' || !event.calls || frame >= event.last) return [];
  if (event.list !== recording.current) {
    if (index !== timeline.events.length - 1) return null;
    event.last = frame;
    return [holdCall(parameter, frame)];
  }
  const calls = frame > event.first ? targetCalls(parameter, event, event.first, frame)
                                    : [setCall(parameter, event.first, event.startValue)];
  for (const call of calls) recording.lose('lowered-target', call);
  event.list.splice(event.list.indexOf(event.calls[0]), event.calls.length, ...calls);
  Object.assign(event, {calls, last: frame});
  return [];
}

// A value that is put into a rewritten ramp, behind which nothing comes: the ramp begins there, and what was there before
// it comes back up to then. Gives the calls, or null where it is none.
function bendRamp(parameter, {place, value}) {
  const {timeline, recording} = parameter, index = timeline.indexAt(place), ramp = timeline.events[index + 1];
  const isWithin = ramp && isRamp(ramp) && ramp.isLowered && ramp.begin <= place && index + 2 === timeline.events.length;
  if (!isWithin) return null;
  const frame = Math.ceil(place), from = Math.max(ramp.first, recording.now);
  const before = from < frame ? [setCall(parameter, from, ramp.startValue)] : [];
  const calls = rampCalls(parameter, ramp, place, value);
  Object.assign(ramp, {calls, startValue: value, begin: place, first: frame});
  return [holdCall(parameter, from), ...before, setCall(parameter, frame, value), ...calls];
}

function lowerSet(parameter, event) {
  const cut = cutTarget(parameter, event.place), bent = cut && bendRamp(parameter, event);
  if (bent) return {calls: [...cut, ...bent], keepsCall: false, kind: 'lowered-ramp'};
  return {calls: cut || [], keepsCall: true, failed: !cut || bendsCurve(parameter, event.place)};
}

// A ramp that comes next takes the place of a target: from its first frame on, or from now on where it is under way. The
// target becomes the value that it has there; one without a time constant is a value from its place on. Gives the calls
// for that, or null where there is no way.
function endTarget(parameter, index) {
  const {timeline, recording} = parameter, event = timeline.events[index];
  if (!(event.timeConstant > 0)) {
    timeline.events[index] = {kind: 'set', place: event.place, value: event.value};
    return [];
  }
  const place = Math.max(Math.ceil(event.place), recording.now), value = timeline.valueAfter(index, place);
  const cut = cutTarget(parameter, place);
  if (!cut) return null;
  timeline.events[index] = {kind: 'set', place, value};
  const call = setCall(parameter, place, value);
  recording.lose('lowered-target', call);
  return [...cut, call];
}

function lowerRamp(parameter, event) {
  const {timeline, recording} = parameter;
  const index = timeline.indexAt(event.place), isBehindTarget = index >= 0 && timeline.events[index].kind === 'target';
  const ended = isBehindTarget ? endTarget(parameter, index) : [];
  if (!ended) return {calls: [], keepsCall: true, failed: true};
  const begin = index >= 0 ? Timeline.endOf(timeline.events[index]) : recording.now;
  const startValue = timeline.valueAfter(index, begin);
  const failed = bendsCurve(parameter, event.place);
  event.begin = begin;
  event.isLowered = event.kind === 'exponential' || !Number.isInteger(begin) || !Number.isInteger(event.place);
  if (!event.isLowered) return failed || ended.length ? {calls: ended, keepsCall: true, failed} : CALL_ALONE;
  const calls = rampCalls(parameter, event, begin, startValue);
  Object.assign(event, {calls, startValue, first: Math.max(Math.ceil(begin), recording.now), last: Math.ceil(event.place)});
  return {calls: [...ended, ...calls], keepsCall: false, kind: event.kind === 'ramp' ? 'lowered-ramp' : 'lowered-exponential', failed};
}

// A ramp as curves up to its last whole frame, and as a value at the next one where it ends between two.
function rampCalls(parameter, event, begin, startValue) {
  const {recording} = parameter;
  const first = Math.max(Math.ceil(begin), recording.now), end = Math.floor(event.place);
  // An exponential ramp from 0 or to the other sign is a jump at its end.
  const isJump = first > end || (event.kind === 'exponential' && !(startValue * event.value > 0));
  if (isJump) return [setCall(parameter, Math.ceil(event.place), event.value)];
  const last = Math.min(end, Math.max(recording.length + 1024, first)); // no more is heard
  const valueAt = frame => rampValue(event, begin, startValue, frame);
  const calls = curveCalls(parameter, first, last, valueAt, distanceOfRamp(event, begin, startValue));
  if (!calls.length) calls.push(setCall(parameter, first, valueAt(first)));
  if (last === end && end < event.place) calls.push(setCall(parameter, end + 1, event.value));
  return calls;
}

// After how many frames a target counts as reached.
function framesToTarget(timeConstant, step) {
  return timeConstant > 0 ? Math.max(1, Math.ceil(timeConstant * Math.log(Math.max(2, step / SMALLEST_STEP)))) : 0;
}

// Up to which frame a target is written: until it is reached, the context ends or another event comes.
const lastOfTarget = (recording, first, reached, next) =>
  Math.min(reached, Math.max(recording.length, first + 1), next ? Math.ceil(next.place) : Infinity);

function lowerTarget(parameter, event) {
  const {timeline, recording} = parameter;
  const cut = cutTarget(parameter, event.place);
  const index = timeline.indexAt(event.place), next = timeline.events[index + 1];
  const startValue = timeline.valueAfter(index, event.place), step = Math.abs(event.value - startValue);
  const failed = !cut || (next && isRamp(next)) || bendsCurve(parameter, event.place);
  const first = Math.ceil(event.place), frames = framesToTarget(event.timeConstant, step);
  const last = lastOfTarget(recording, first, first + frames, next);
  const calls = cut || [], kind = 'lowered-target';
  event.isLowered = true;
  if (last <= first && frames > 0) return {calls, keepsCall: false, kind, failed}; // the next event comes at once
  if (frames === 0 || step === 0) calls.push(setCall(parameter, first, event.value));
  else {
    Object.assign(event, {startValue, reached: first + frames, first, last, list: recording.current});
    event.calls = targetCalls(parameter, event, first, last);
    calls.push(...event.calls);
  }
  return {calls, keepsCall: false, kind, failed};
}

// The lines of a curve between frames, each from the first frame behind a point to the last one before the next.
function lineCalls(parameter, event, first, last) {
  const parts = event.values.length - 1, calls = [], placeOf = point => event.place + event.duration * point / parts;
  const valueAt = frame => curveValue(event, frame);
  for (let point = 0; point < parts; point++) {
    const begin = Math.max(first, Math.ceil(placeOf(point))), end = Math.min(last, Math.floor(placeOf(point + 1)));
    if (end > begin) calls.push(curveCall(parameter, begin, end, 1, valueAt));
    else if (end === begin) calls.push(setCall(parameter, begin, valueAt(begin)));
  }
  if (last > placeOf(parts)) calls.push(setCall(parameter, last, valueAt(last)));
  return calls;
}

// A curve between frames, from one frame to another: a point for each frame, or where that is less, lines.
function curveBetweenFrames(parameter, event, first, last) {
  const isLess = event.values.length * BYTES_OF_A_CALL < (last - first) * BYTES_OF_A_POINT;
  return isLess ? lineCalls(parameter, event, first, last) : curveCalls(parameter, first, last, frame => curveValue(event, frame), () => 1);
}

function lowerCurve(parameter, event) {
  const cut = cutTarget(parameter, event.place), calls = cut || [];
  const failed = !cut || bendsCurve(parameter, event.place);
  if (Number.isInteger(event.place) && Number.isInteger(event.duration)) return {calls, keepsCall: true, failed};
  const first = Math.ceil(event.place), end = event.place + event.duration;
  const last = Math.min(isBehindFrame(end) ? Math.floor(end) : Math.ceil(end), Math.max(parameter.recording.length + 1024, first + 1));
  event.startValue = parameter.timeline.valueAfter(parameter.timeline.indexAt(event.place), event.place);
  event.calls = last > first ? curveBetweenFrames(parameter, event, first, last)
                             : [setCall(parameter, first, event.values[event.values.length - 1])];
  Object.assign(event, {first, last});
  calls.push(...event.calls);
  return {calls, keepsCall: false, kind: 'lowered-curve', failed};
}

const isSeveral = event => isRamp(event) || (event.kind === 'curve' && event.calls.length > 1);

// A cancel takes away a script's curve that it lies in. Where the page's event goes on, its rest is put in again.
// Where a ramp or a curve goes that is several calls, all of them have to go, and the value before it comes back.
function lowerCancel(parameter, {place}) {
  const {timeline, recording} = parameter, frame = Math.ceil(place), kind = 'lowered-hold';
  const isGone = event => timeline.isCancelled(event, place);
  const reaching = timeline.events.find(event => event.calls && !isGone(event) && event.last >= frame);
  const ramp = timeline.events.find(event => event.calls && isSeveral(event) && isGone(event) && event.first < frame);
  if (ramp) {
    const from = Math.max(ramp.first, recording.now);
    return {calls: [holdCall(parameter, from), setCall(parameter, from, ramp.startValue)], keepsCall: false, kind, failed: Boolean(reaching)};
  }
  if (!reaching) return CALL_ALONE;
  if (!timeline.events.some(isGone)) return {calls: [], keepsCall: false, kind};
  if (reaching.kind !== 'target') return {calls: [], keepsCall: true, failed: true};
  const next = timeline.events.find(event => !isGone(event) && event.place > reaching.place);
  const last = lastOfTarget(recording, frame, reaching.reached, next);
  const rest = targetCalls(parameter, reaching, frame, last);
  Object.assign(reaching, {calls: rest, first: frame, last, list: recording.current});
  return {calls: [holdCall(parameter, frame), ...rest], keepsCall: false, kind};
}

// A hold between two frames keeps the value that was reached there: the frame before it is held, and the next one set.
function lowerHold(parameter, {place}) {
  const {timeline, recording} = parameter;
  if (Number.isInteger(place) || Math.floor(place) < recording.now || !timeline.isMovingAt(place)) return CALL_ALONE;
  const value = timeline.valueAt(place, recording.now);
  const calls = [holdCall(parameter, Math.floor(place)), setCall(parameter, Math.ceil(place), value)];
  return {calls, keepsCall: false, kind: 'lowered-hold'};
}

export const LOWERING = {
  set: lowerSet, ramp: lowerRamp, exponential: lowerRamp, target: lowerTarget, curve: lowerCurve,
  cancel: lowerCancel, hold: lowerHold,
};
