// Panners: those whose position stands still become gains. Those that move become gains that move, see pan_curves.js.
//
// A panner has one rule for one channel and another for two, so the number of channels that it hears must be known.

import {steadyValues} from './graph.js';
import {motionOf, movingCalls} from './pan_curves.js';
import {azimuthGains, azimuthOf, coneGain, distanceGain, minus, sizeOf, stereoGains} from './panning.js';
import {fixedValue} from './values.js';

const AXES = ['X', 'Y', 'Z'];
const named = (values, name) => AXES.map(axis => values[name + axis]);
const parametersOf = names => names.flatMap(name => AXES.map(axis => name + axis));

// The values that a stereo panner keeps: {pan}, or null where it moves.
export const steadyPan = (entry, sounding) => steadyValues(entry, ['pan'], sounding);

// The position of a panner of equal power: {source, orientation, listener}, or null where it moves.
export function steadyPosition(entry, sounding) {
  const {node, recording, attributesAt = 0} = entry;
  if (node.panningModel !== 'equalpower' || attributesAt > sounding) return null;
  const own = steadyValues(entry, parametersOf(['position', 'orientation']), sounding);
  const heard = steadyValues(recording.listener, parametersOf(['position', 'forward', 'up']), sounding);
  if (!own || !heard) return null;
  return {source: named(own, 'position'), orientation: named(own, 'orientation'),
          listener: {position: named(heard, 'position'), forward: named(heard, 'forward'), up: named(heard, 'up')}};
}

// What a steady panner does to its input: {left, right, isLeft, whole}, or null where it is not steady.
function gainsOf(entry, sounding, isStereo) {
  if (entry.kind === 'StereoPannerNode') {
    const found = steadyPan(entry, sounding);
    return found && {...stereoGains(found.pan, isStereo), whole: 1};
  }
  const found = steadyPosition(entry, sounding);
  if (!found) return null;
  const {source, orientation, listener} = found, {node} = entry;
  const distance = distanceGain(node, sizeOf(minus(source, listener.position)));
  return {...azimuthGains(azimuthOf(source, listener), isStereo),
          whole: distance * coneGain(node, source, orientation, listener.position)};
}

// How many channels a panner hears: 1 or 2, or null where both come.
export function channelsOf(entry, widths) {
  const heard = [...widths.input(entry)];
  return heard.length > 1 ? null : heard[0] || 1;
}

// The plan of a panner, or null where it cannot be gains.
export function planOfPanner(entry, graph, widths) {
  const channels = channelsOf(entry, widths), isStereo = channels === 2;
  if (!channels) return null;
  const first = graph.soundingOf(entry.name), sounding = first === Infinity ? 0 : first;
  const gains = gainsOf(entry, sounding, isStereo);
  if (gains) return {...gains, isStereo};
  const motion = motionOf(entry, isStereo, sounding);
  return motion && {motion, isStereo};
}

function gainCall(recording, name, gain) {
  const call = {op: 'createGain', as: name};
  call.gain = fixedValue(recording, gain, call);
  recording.lose('lowered-panner', call);
  return call;
}

// The connections within a panner, as [from, output, to, input].
function wiresOf({head, split, left, right, merger}, {isStereo, isLeft}) {
  if (!isStereo) return [[head, 0, left, 0], [head, 0, right, 0], [left, 0, merger, 0], [right, 0, merger, 1]];
  const turned = isLeft ? 1 : 0; // the channel of which both sides get some
  return [[head, 0, split, 0], [split, turned, left, 0], [split, turned, right, 0], [left, 0, merger, 0], [right, 0, merger, 1],
          [split, 1 - turned, merger, 1 - turned]];
}

function connectCall([from, output, to, input]) {
  return {op: 'connect', from, to, ...(output ? {output} : {}), ...(input ? {input} : {})};
}

// The calls that come in the place of a panner. What comes in is mixed to two channels at most, as a panner does.
function callsOf(recording, {name}, plan) {
  const names = {head: `${name}_1`, left: `${name}_2`, right: `${name}_3`, split: `${name}_4`, merger: name};
  const calls = [
    gainCall(recording, names.head, plan.whole), {op: 'setChannelCountMode', node: names.head, value: 'clamped-max'},
    gainCall(recording, names.left, plan.left), gainCall(recording, names.right, plan.right)];
  if (plan.isStereo) calls.push({op: 'createChannelSplitter', as: names.split, numberOfOutputs: 2});
  calls.push({op: 'createChannelMerger', as: name, numberOfInputs: 2}, ...wiresOf(names, plan).map(connectCall));
  return {calls, head: names.head};
}

// Lets gains come in the place of the panners that have a plan.
export function lowerPanners(recording, plans, replacements) {
  for (const [entry, plan] of plans) {
    const {calls, head} = plan.motion ? movingCalls(recording, entry, plan, connectCall) : callsOf(recording, entry, plan);
    replacements.put(entry, calls, head);
  }
}
