// Automation: the events of one parameter as the page made them, with real places and real values.
//
// A place is a time in frames and may lie between two frames. Values are those of the standard's formulas.
// The rewriting of calls asks here what a parameter does, and puts it into words that a script has.

import {framePlace, isBehindFrame} from './values.js';

export class Timeline {
  constructor(startValue) {
    this.startValue = startValue; // before the first event
    this.events = [];             // {kind: set, ramp, exponential, target or curve, place, value, ...}, in order of places
    this.found = -1;              // where the last place was, as places are often asked for in order
  }

  // The number of the last event at or before a place, or -1.
  indexAt(place) {
    let index = Math.min(this.found, this.events.length - 1);
    while (index + 1 < this.events.length && this.events[index + 1].place <= place) index++;
    while (index >= 0 && this.events[index].place > place) index--;
    this.found = index;
    return index;
  }

  put(event) {
    const place = this.indexAt(event.place) + 1;
    this.events.splice(place, 0, event);
    for (const other of this.events.slice(place)) other.begunWith = undefined;
  }

  // Where an event lets the next ramp begin.
  static endOf(event) {
    return event.kind === 'curve' ? event.place + event.duration : event.place;
  }

  // The value at a place at or after event `index`, if no other event came after it.
  valueAfter(index, place) {
    if (index < 0) return this.startValue;
    const event = this.events[index];
    if (event.kind === 'curve') return curveValue(event, place);
    if (event.kind === 'target') return targetValue(event, this.startOfTarget(index), place);
    return event.value;
  }

  // The value from which a target begins. It may be that of another target, and so on, so it is kept.
  startOfTarget(index) {
    const event = this.events[index];
    if (event.begunWith === undefined) event.begunWith = this.valueAfter(index - 1, event.place);
    return event.begunWith;
  }

  // The value at a place, on a ramp too. A ramp that nothing comes before begins when it was asked for, or `now`.
  valueAt(place, now) {
    const index = this.indexAt(place), next = this.events[index + 1];
    if (!next || (next.kind !== 'ramp' && next.kind !== 'exponential')) return this.valueAfter(index, place);
    const begin = index >= 0 ? Timeline.endOf(this.events[index]) : next.madeAt ?? Math.min(now, place);
    return place <= begin ? this.valueAfter(index, place) : rampValue(next, begin, this.valueAfter(index, begin), place);
  }

  // The value that stays from a place on, or undefined where it changes.
  steadyValue(place) {
    const index = this.indexAt(place), event = this.events[index], value = this.valueAfter(index, place);
    const isLevel = ({kind, values, value: other}) => kind === 'curve' ? values.every(each => each === value) : other === value;
    const isUnderWay = event && ((event.kind === 'target' && event.value !== value) ||
      (event.kind === 'curve' && place < Timeline.endOf(event) && !isLevel(event)));
    return isUnderWay || !this.events.slice(index + 1).every(isLevel) ? undefined : value;
  }

  // Whether a cancel at a place takes an event away: those from the place on, and a curve that it lies in.
  isCancelled(event, place) {
    return event.place >= place || (event.kind === 'curve' && place <= Timeline.endOf(event));
  }

  cancel(place) {
    this.events = this.events.filter(event => !this.isCancelled(event, place));
    for (const event of this.events) event.begunWith = undefined;
  }

  // Whether the value is on its way at a place: on a ramp, to a target, or in a curve.
  isMovingAt(place) {
    const index = this.indexAt(place), event = this.events[index], next = this.events[index + 1];
    return Boolean(next && (next.kind === 'ramp' || next.kind === 'exponential')) ||
           Boolean(event && (event.kind === 'target' || (event.kind === 'curve' && place < Timeline.endOf(event))));
  }

  // After a hold the value that was reached stays, and a next ramp begins there. Where nothing moves, later
  // events are gone and that is all.
  hold(place, now) {
    const isMoving = this.isMovingAt(place), value = this.valueAt(place, now);
    this.events = this.events.slice(0, this.indexAt(place) + 1);
    if (isMoving) this.put({kind: 'set', place, value});
  }
}

export function curveValue({place: begin, duration, values}, place) {
  if (place >= begin + duration) return values[values.length - 1];
  const position = (place - begin) / duration * (values.length - 1);
  const before = Math.min(Math.floor(position), values.length - 2);
  return values[before] + (values[before + 1] - values[before]) * (position - before);
}

export function targetValue({place: begin, value, timeConstant}, startValue, place) {
  return timeConstant > 0 ? value + (startValue - value) * Math.exp(-(place - begin) / timeConstant) : value;
}

// A value on a ramp to `event` that began at `begin` with `startValue`.
export function rampValue(event, begin, startValue, place) {
  if (place >= event.place) return event.value;
  const part = (place - begin) / (event.place - begin);
  if (event.kind === 'ramp') return startValue + (event.value - startValue) * part;
  return startValue * event.value > 0 ? startValue * (event.value / startValue) ** part : startValue;
}

// Whether the value jumps at an event that comes where it is `before`.
function isJump({kind, value, values, timeConstant}, before) {
  if (kind === 'exponential') return !(before * value > 0);
  if (kind === 'target') return !(timeConstant > 0) && value !== before;
  return (kind === 'set' && value !== before) || (kind === 'curve' && values[0] !== before);
}

// The place of an event. A time that is by a rounding behind a frame, as 0.07 is at 48,000, counts for the browser from
// the next one on, but for a first event at the beginning of a quantum. It stays behind the frame where that is heard,
// which is where the value jumps, and where another event stays. Places before now stand for now.
function placeOf({recording, timeline}, seconds, event) {
  const place = framePlace(recording, seconds), exact = seconds * recording.rate;
  if (place < recording.now || exact <= place) return Math.max(place, recording.now);
  const isFirst = place % recording.quantum === 0 && seconds === place / recording.rate && timeline.indexAt(place) < 0;
  const stays = ({place: other}) => Math.floor(other) === place && isBehindFrame(other);
  const isHeard = timeline.events.some(stays) || isJump(event, timeline.valueAt(place, recording.now));
  return isHeard && !isFirst ? exact : place;
}

// What a page's call puts into a timeline, and its time.
function withoutPlace(recording, method, args) {
  const value = Math.fround(+args[0]);
  switch (method) {
    case 'setValueAtTime': return [{kind: 'set', value}, args[1]];
    case 'linearRampToValueAtTime': return [{kind: 'ramp', value}, args[1]];
    case 'exponentialRampToValueAtTime': return [{kind: 'exponential', value}, args[1]];
    case 'setTargetAtTime': return [{kind: 'target', value, timeConstant: +args[2] * recording.rate}, args[1]];
    case 'setValueCurveAtTime':
      return [{kind: 'curve', values: Float32Array.from(args[0]), duration: framePlace(recording, +args[2])}, args[1]];
    case 'cancelScheduledValues': return [{kind: 'cancel'}, args[0]];
  }
  return [{kind: 'hold'}, args[0]];
}

// The event of a page's call.
export function eventOf(parameter, method, args) {
  const {recording} = parameter;
  if (method === 'value') return {kind: 'set', place: recording.now, value: Math.fround(+args[0])};
  const [event, seconds] = withoutPlace(recording, method, args), place = placeOf(parameter, +seconds, event);
  // Of a target the product that Chromium makes of its time, for `targets.js`.
  const made = event.kind === 'target' ? {exact: seconds * recording.rate, isOnFrame: +seconds === place / recording.rate} : {};
  return {...event, place, ...made};
}
