// Pan curves: a panner that moves becomes gains that move, by curves.
//
// The gains follow from the pan, or from the positions of panner and listener, at each frame. Those are known where the
// page only put events in: what is cancelled, held or connected is not rewritten, nor is a ramp that was asked for after
// it began.

import {Timeline} from './automation.js';
import {curveCalls, distanceOfValues} from './lowering.js';
import {native} from './native.js';
import {azimuthGains, azimuthOf, coneAngle, coneGain, distanceGain, facingOf, minus, sizeOf, stereoGains} from './panning.js';
import {entryOfParameter} from './recording.js';
import {fixedValue, nearestFixed} from './values.js';

const AXES = ['X', 'Y', 'Z'];
const NEAR_ENOUGH = 2 ** -23; // from the lines of a curve to the gain that they stand for

const wholeOf = value => nearestFixed(Math.fround(value)).whole;
const isRamp = ({kind}) => kind === 'ramp' || kind === 'exponential';

// The stretches in which a parameter moves: [{first, last, isBent}, ..], where one that has no frames is a jump. Null where
// they are not known.
function stretchesOf({timeline, recording}) {
  const found = [];
  for (const [number, event] of timeline.events.entries()) {
    const before = timeline.events[number - 1], next = timeline.events[number + 1];
    const begin = before ? Timeline.endOf(before) : event.madeAt;
    if (isRamp(event)) {
      if (begin < event.madeAt || (before && before.kind === 'target')) return null;
      found.push({first: Math.ceil(begin), last: Math.floor(event.place)});
    } else if (event.kind === 'curve') {
      const end = Math.min(Timeline.endOf(event), recording.length);
      found.push({first: Math.ceil(event.place), last: Math.floor(end), isBent: true});
    } else if (event.kind === 'target') {
      found.push({first: Math.ceil(event.place), last: Math.min(recording.length, next ? Math.ceil(next.place) : Infinity)});
    } else found.push({first: Math.ceil(event.place), last: Math.ceil(event.place) - 1});
  }
  return found;
}

// What a parameter of a node is over time: {valueAt, stretches}, or null where that is not known.
function courseOf(entry, name) {
  const parameter = entryOfParameter.get(entry.node[name]);
  if (!entry.isSteady || (parameter && parameter.isCancelled)) return null;
  if (!parameter || !parameter.timeline.events.length) {
    const value = parameter ? parameter.timeline.startValue : native.value.call(entry.node[name]);
    return {valueAt: () => value, stretches: []};
  }
  const stretches = entry.node[name].automationRate === 'a-rate' ? stretchesOf(parameter) : null;
  return stretches && {valueAt: frame => parameter.timeline.valueAt(frame, entry.bornAt || 0), stretches};
}

// The courses of parameters, or null where one of them is not known.
function coursesOf(entry, names) {
  const courses = names.map(name => courseOf(entry, name));
  return courses.includes(null) ? null : courses;
}

// The gains from each channel to each side: from the left and the right channel to the left one, and the same to the right
// one. Of one channel there are two.
function gainsOf({left, right, isLeft}, isStereo, whole = 1) {
  const gains = !isStereo ? [left, right] : isLeft ? [1, left, 0, right] : [left, 0, right, 1];
  return gains.map(gain => gain * whole);
}

// In which of its regions a number is. Where it goes from one to the next, gains break off.
const regionOf = (number, ...ends) => ends.filter(end => number > end).length;

// How a stereo panner moves: {stretches, at}, or null. `at` gives {gains, region} at a frame.
function motionOfPan(entry, isStereo) {
  const course = courseOf(entry, 'pan');
  return course && {stretches: course.stretches, at(frame) {
    const pan = course.valueAt(frame);
    return {gains: gainsOf(stereoGains(pan, isStereo), isStereo), region: `${regionOf(pan, -1, 0, 1)}`};
  }};
}

// Whether a target leads a parameter. Those of the listener go another way in Chromium.
const hasTarget = (entry, name) => (entryOfParameter.get(entry.node[name])?.timeline.events || []).some(({kind}) => kind === 'target');

const placesOf = names => names.flatMap(name => AXES.map(axis => name + axis));
const OWN = ['position', 'orientation'], LISTENER = ['position', 'forward', 'up'];

// Where something is at a frame, by three courses. It is the same list where it stands still.
function vectorOf(courses) {
  const at = frame => courses.map(course => course.valueAt(frame)), still = at(0);
  return courses.some(course => course.stretches.length) ? at : () => still;
}

// What `make` makes of things that stand still for long.
function kept(make) {
  let made, of = [];
  return (...things) => {
    if (things.some((thing, place) => thing !== of[place])) [made, of] = [make(...things), things];
    return made;
  };
}

// The same of a panner of equal power, by its own course and that of the listener.
function motionOfPosition(entry, isStereo, sounding) {
  const {node, recording, attributesAt = 0} = entry;
  if (node.panningModel !== 'equalpower' || attributesAt > sounding) return null;
  const own = coursesOf(entry, placesOf(OWN));
  const heard = coursesOf(recording.listener, placesOf(LISTENER));
  if (!own || !heard || placesOf(LISTENER).some(name => hasTarget(recording.listener, name))) return null;
  const courses = [...own, ...heard], vectors = [0, 3, 6, 9, 12].map(place => vectorOf(courses.slice(place, place + 3)));
  const facing = kept((forward, up) => facingOf({forward, up}));
  return {stretches: courses.flatMap(course => course.stretches), at(frame) {
    const [source, orientation, position, forward, up] = vectors.map(vector => vector(frame));
    const distance = sizeOf(minus(source, position)), azimuth = azimuthOf(source, {position}, facing(forward, up));
    const angle = coneAngle(source, orientation, position);
    const whole = distanceGain(node, distance) * coneGain(node, source, orientation, position);
    return {gains: gainsOf(azimuthGains(azimuth, isStereo), isStereo, whole),
            region: [regionOf(azimuth, -90, 0, 90), regionOf(distance, 0, node.refDistance, node.maxDistance),
                     regionOf(angle, Math.abs(node.coneInnerAngle) / 2, Math.abs(node.coneOuterAngle) / 2)].join()};
  }};
}

// How a panner moves, or null where that is not known.
export function motionOf(entry, isStereo, sounding) {
  return entry.kind === 'StereoPannerNode' ? motionOfPan(entry, isStereo) : motionOfPosition(entry, isStereo, sounding);
}

// The frames from a birth on at which something may begin or break off, and the length behind them.
function cutsOf(stretches, bornAt, length) {
  const frames = stretches.flatMap(({first, last}) => [first, last + 1]).map(frame => Math.max(frame, bornAt));
  return [...new Set(frames)].filter(frame => frame < length).sort((one, other) => one - other).concat(length);
}

// What moves between two cuts: its gains at each frame, in parts that do not break off: [{first, values, isBent}, ..].
function partsOf({stretches, at}, first, end) {
  const moving = stretches.filter(stretch => stretch.first <= first && first <= stretch.last);
  const isBent = moving.some(stretch => stretch.isBent), parts = [];
  let region = null;
  for (let frame = first; frame < (moving.length ? end : first + 1); frame++) {
    const found = at(frame);
    if (found.region !== region) parts.push({first: frame, isBent, values: found.gains.map(() => [])});
    region = found.region;
    found.gains.forEach((gain, place) => parts[parts.length - 1].values[place].push(gain));
  }
  return parts;
}

// A value of a list, or what lies between two of them.
function valueOf(values, place) {
  const before = Math.floor(place), next = Math.min(before + 1, values.length - 1);
  return values[before] + (values[next] - values[before]) * (place - before);
}

// How far the lines of curves are from the values that they stand for.
function errorOf(calls, first, values) {
  let most = 0;
  for (const {time, duration, values: points} of calls)
    for (let frame = time; frame <= time + duration; frame++) {
      const line = valueOf(points, (frame - time) / duration * (points.length - 1));
      most = Math.max(most, Math.abs(line / 2 ** 24 - values[frame - first]));
    }
  return most;
}

// The calls that let a gain follow its values from a frame on. Lines that miss them give way to a point for each frame.
function followingCalls(follower, {first, isBent}, values) {
  const {recording} = follower, last = first + values.length - 1, valueAt = frame => valueOf(values, frame - first);
  if (last === first) {
    const call = {op: 'setValueAtTime', node: follower.node.name, param: 'gain'};
    call.value = fixedValue(recording, values[0], call);
    return [Object.assign(call, {time: first})];
  }
  const lines = isBent || values.length < 3 ? null
    : curveCalls(follower, first, last, valueAt, distanceOfValues(valueAt, first, last));
  if (lines && errorOf(lines, first, values) <= NEAR_ENOUGH) return lines;
  return curveCalls(follower, first, last, valueAt, () => 1);
}

// The gains that follow a motion: their creations with the values at first, and what moves them.
function gainCalls(recording, names, motion, bornAt) {
  const creations = names.map((name, place) => {
    const creation = {op: 'createGain', as: name};
    creation.gain = fixedValue(recording, motion.at(bornAt).gains[place], creation);
    recording.lose('lowered-panner', creation);
    return creation;
  });
  const reached = creations.map(creation => creation.gain), cuts = cutsOf(motion.stretches, bornAt, recording.length), calls = [];
  for (const part of cuts.slice(0, -1).flatMap((cut, number) => partsOf(motion, cut, cuts[number + 1])))
    part.values.forEach((values, place) => {
      if (values.every(value => wholeOf(value) === reached[place])) return;
      calls.push(...followingCalls({recording, node: {name: names[place]}, name: 'gain'}, part, values));
      reached[place] = wholeOf(values[values.length - 1]);
    });
  return [...creations, ...calls];
}

// The connections, as [from, output, to, input].
function wiresOf(names, {head, split, merger}) {
  if (names.length === 2) return names.flatMap((name, side) => [[head, 0, name, 0], [name, 0, merger, side]]);
  return [[head, 0, split, 0], ...names.flatMap((name, place) => [[split, place % 2, name, 0], [name, 0, merger, place < 2 ? 0 : 1]])];
}

// The calls that come in the place of a panner that moves: {calls, head}.
export function movingCalls(recording, {name, bornAt}, {motion, isStereo}, connectCall) {
  const head = `${name}_1`, split = `${name}_2`, names = Array.from({length: isStereo ? 4 : 2}, (_, place) => `${name}_${place + 3}`);
  const calls = [{op: 'createGain', as: head}, {op: 'setChannelCountMode', node: head, value: 'clamped-max'},
    ...gainCalls(recording, names, motion, bornAt)];
  if (isStereo) calls.push({op: 'createChannelSplitter', as: split, numberOfOutputs: 2});
  calls.push({op: 'createChannelMerger', as: name, numberOfInputs: 2}, ...wiresOf(names, {head, split, merger: name}).map(connectCall));
  return {calls, head};
}
