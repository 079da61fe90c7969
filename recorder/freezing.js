// Freezing: where a script has no word for a node, the sound that came out of it is played in its place.
//
// As little as can be is frozen: the refused nodes alone, each at its output. What feeds them and nothing else is
// dropped, also what feeds only their parameters; what they lead to stays as it is. A loop with a refused node is
// frozen whole, since a loop in Chromium is a quantum longer, and nothing of it may be played twice.

import {plansOfConvolvers} from './convolvers.js';
import {steadyBiquad} from './filter_rows.js';
import {BUFFER_LIMIT} from './limits.js';
import {LOSS_KINDS} from './losses.js';
import {planOfPanner} from './panners.js';
import {Performance, apart, roomsOf} from './performing.js';
import {ONE, loseOfList, nearestFixedList} from './values.js';

const MOST_CHANNELS = 32;
const LONGEST_PART = 2 ** 22; // frames of a buffer
export const SAME = 2 ** -20;        // how far two renderings of the browser may be apart without a word
const MOST_OUTSIDE = 500;     // samples that are written into a buffer one by one
const TRIALS = 8;          // where they are: Chromium takes the nodes of a loop in another order from run to run

// Losses of calls on nodes that waplay has, which make it play something else.
const OF_CALLS = new Set(['value-range', 'not-finite', 'second-curve', 'lowering-failed', 'oversample', 'long-delay', 'late-buffer',
  'loop-change', 'playback-rate', 'playback-rate-automation', 'detune', 'resampling']);
// Those that baking takes away.
const OF_BAKED = new Set(['playback-rate', 'playback-rate-automation', 'detune', 'resampling']);

const isSource = ({kind}) => kind === 'OscillatorNode' || kind === 'AudioBufferSourceNode';

// The node whose call a loss is about.
const nodeOfLoss = ({call}) => call.as ?? call.node ?? call.to;

// What of a recording a script can say, and what not.
class Refusals {
  constructor(recording, graph, widths) {
    this.recording = recording;
    this.ofCalls = new Map(); // name -> kind of a loss
    for (const loss of recording.losses)
      if (loss.call && OF_CALLS.has(loss.kind) && !recording.outcomes.has(loss.call)) this.ofCalls.set(nodeOfLoss(loss), loss.kind);
    this.panners = new Map(recording.panners.map(entry => [entry, planOfPanner(entry, graph, widths)]));
    this.convolvers = plansOfConvolvers(recording, widths);
    this.graph = graph;
  }

  // Why a node has to be frozen, as a word; null where it has not.
  of(entry) {
    const found = this.ofCalls.get(entry.name) || null;
    if (isSource(entry) && entry.isBakeable && (OF_BAKED.has(found) || entry.kind === 'OscillatorNode')) return null;
    if (entry.kind === 'OscillatorNode') return 'something is connected to its parameters';
    if (entry.kind === 'AnalyserNode' || entry.kind === 'destination') return null;
    if (entry.kind === 'BiquadFilterNode') return steadyBiquad(entry, this.graph) ? null : 'its parameters move';
    if (this.panners.has(entry)) return this.panners.get(entry) ? null : whyOfPanner(entry);
    if (this.convolvers.has(entry)) return this.convolvers.get(entry).why || null;
    if (this.recording.refusedNames.has(entry.name)) return 'a script has no such node';
    return found && LOSS_KINDS[found].says;
  }
}

const whyOfPanner = ({kind, node}) => kind === 'PannerNode' && node.panningModel === 'HRTF' ? 'it is of the model HRTF'
                                                                                          : 'it moves, or hears one channel and two';

// The nodes that lie on a way from themselves back to themselves, loop by loop.
export function loopsOf(graph) {
  const loops = [], seen = new Set();
  for (const name of graph.entries.keys()) {
    if (seen.has(name)) continue;
    const after = graph.downstream(graph.leaving(name).map(edge => edge.to));
    if (!after.has(name)) continue;
    const loop = [...graph.upstream([name])].filter(each => after.has(each));
    for (const each of loop) seen.add(each);
    loops.push(loop);
  }
  return loops;
}

// What is to become of the nodes: {reasons, loops, panners, convolvers, frozen, dropped, heard}. `reasons` has why a node cannot be as
// it is, by its name; `frozen` has the names of those that are heard, and `dropped` of what is not needed any more. Where
// `voices` are taps, what they hear is not live.
export function planOf(recording, graph, widths, voices = []) {
  const refusals = new Refusals(recording, graph, widths), reasons = new Map(), loops = new Set();
  for (const [name, entry] of graph.entries) {
    const reason = refusals.of(entry);
    if (reason) reasons.set(name, reason);
  }
  if (reasons.size)
    for (const loop of loopsOf(graph)) {
      const cause = loop.find(name => reasons.has(name));
      if (cause) for (const name of loop) {
        loops.add(name);
        if (!reasons.has(name)) reasons.set(name, `it is in a loop with ${cause}`);
      }
    }
  const cut = new Set(voices.flatMap(({edges}) => edges)), singing = voices.flatMap(({from}) => [...from]);
  const heard = graph.upstream(['destination'], name => !reasons.has(name), edge => !cut.has(edge));
  const frozen = new Set([...heard].filter(name => reasons.has(name)));
  const dropped = new Set([...graph.upstream([...reasons.keys(), ...singing])].filter(name => !heard.has(name)));
  const isLeft = ([entry, plan]) => plan && !plan.why && !reasons.has(entry.name) && !dropped.has(entry.name);
  const panners = new Map([...refusals.panners].filter(isLeft)), convolvers = new Map([...refusals.convolvers].filter(isLeft));
  const live = voices.filter(({to}) => heard.has(to) && !reasons.has(to)); // voices in what is frozen itself need no taps
  return {reasons, loops, panners, convolvers, frozen, dropped, heard, singing, voices: live};
}

// How many channels of an output are kept: as many as there may be where it sounds.
export const widthOf = (widths, name, output) => Math.max(1, ...widths.of(name, output));

// Whether it is heard which of some numbers of channels a node has: where it is mixed as discrete, or from or to others
// than 1 and 2.
function isWidthHeard(graph, name, found) {
  const isEven = width => width === 1 || width === 2;
  if (![...found].every(isEven)) return true;
  return [...graph.downstream([name])].filter(each => each !== name).some(each => {
    const {kind, node} = graph.entries.get(each);
    return node.channelInterpretation === 'discrete' || kind === 'ChannelMergerNode' || !isEven(node.channelCount);
  });
}

// The taps of the outputs of frozen nodes that lead to what is live.
function tapsOf(graph, widths, {frozen, dropped}) {
  const taps = [];
  for (const name of frozen) {
    const isLive = edge => !frozen.has(edge.to) && !dropped.has(edge.to);
    const outputs = new Set(graph.leaving(name).filter(isLive).map(edge => edge.output));
    for (const output of outputs) {
      const found = widths.of(name, output), isMixed = found.size > 1 && isWidthHeard(graph, name, found);
      taps.push({name, output, width: widthOf(widths, name, output), isMixed});
    }
  }
  return taps;
}

// What is not silent of some channels, from the beginning of a quantum on: {first, channels}.
function trimmed(channels, quantum) {
  const isSounding = frame => channels.some(samples => samples[frame] !== 0);
  let first = 0, end = channels[0].length;
  while (first < end && !isSounding(first)) first++;
  while (end > first && !isSounding(end - 1)) end--;
  first = Math.floor(first / quantum) * quantum;
  return {first, channels: channels.map(samples => samples.slice(first, end))};
}

// Renders the piece again with these taps. Gives of each tap what it heard, and how far the piece is from the page's.
async function listen(recording, taps, muted) {
  const tapped = new Map();
  let distance = 0, rendered = null;
  for (const room of taps.length ? roomsOf(taps, recording.channels) : [[]]) {
    const found = await new Performance(recording, room, muted).render();
    for (const [tap, channels] of found.tapped) tapped.set(tap, trimmed(channels, recording.quantum));
    rendered = found.rendered;
    distance = Math.max(distance, apart(rendered, recording.rendered));
    recording.work++;
  }
  return {tapped, distance, rendered};
}

// The same again where it is off: a change at a suspension may come a quantum late in one run and not in the next, and the
// nodes of a loop may be taken in another order. Where there is no loop, two runs that are off alike are enough.
export async function listenWell(recording, taps, hasLoops) {
  const distances = new Set();
  let best = null;
  for (let trial = 0; trial < TRIALS && !(best && best.distance <= SAME); trial++) {
    const found = await listen(recording, taps);
    if (!best || found.distance < best.distance) best = found;
    if (!hasLoops && distances.has(found.distance)) break;
    distances.add(found.distance);
  }
  return best;
}

const energyOf = channels => channels.reduce((sum, samples) => samples.reduce((whole, sample) => whole + sample * sample, sum), 0);

// How much of the sound does not come through frozen nodes, from 0 to 1.
async function livePart(recording, graph, {heard, frozen, singing}) {
  const muted = new Set([...frozen, ...singing]), isLive = name => graph.ownSounding(graph.entries.get(name)) < Infinity;
  if (!muted.size) return 1;
  if (![...heard].some(name => !frozen.has(name) && isLive(name))) return 0;
  const {rendered} = await listen(recording, [], muted), live = energyOf(rendered);
  const others = rendered.map((samples, channel) => samples.map((sample, frame) => recording.rendered[channel][frame] - sample));
  return live > 0 ? live / (live + energyOf(others)) : 0;
}

// The name of what plays an output of a frozen node.
export const nameOfOutput = (name, output) => output ? `${name}_out${output + 1}` : name;

// The parts of a sound that are buffers: [{begin, end}, ..].
function partsOf([{length}]) {
  const parts = [];
  for (let begin = 0; begin < length; begin += LONGEST_PART) parts.push({begin, end: Math.min(length, begin + LONGEST_PART)});
  return parts;
}

// A file holds what is from -1 to 1. Where much is beyond, all is made softer by a power of two, and louder again behind.
function loudnessOf(channels) {
  let outside = 0, most = 0;
  for (const samples of channels) for (const sample of samples) if (Math.abs(sample) > 1) {
    outside++;
    most = Math.max(most, Math.abs(sample));
  }
  return outside > MOST_OUTSIDE ? 2 ** Math.min(7, Math.ceil(Math.log2(most))) : 1;
}

// The calls that play one part of a sound under a name.
function partCalls(recording, {first, channels}, {begin, end}, name, kind) {
  const lists = channels.map(samples => nearestFixedList(samples.subarray(begin, end)));
  const buffer = {op: 'createBuffer', as: recording.newName('frozen'), channels: lists.length, length: end - begin, rate: recording.rate};
  recording.versions.push({name: buffer.as, call: buffer, samples: lists.map(({wholes}) => wholes)});
  for (const list of lists) loseOfList(recording, list, buffer);
  const creation = {op: 'createBufferSource', as: name, buffer: buffer.as};
  recording.lose(kind, creation);
  return [buffer, creation, {op: 'start', node: name, when: first + begin}];
}

// The calls that play what came out of a node. What is silent all the time is a source that is never started.
function playingCalls(recording, {first, channels}, name, kind) {
  const parts = partsOf(channels), loudness = loudnessOf(channels);
  const sound = {first, channels: loudness > 1 ? channels.map(samples => samples.map(sample => sample / loudness)) : channels};
  if (parts.length === 1 && loudness === 1) return partCalls(recording, sound, parts[0], name, kind);
  if (!parts.length) {
    const call = {op: 'createConstantSource', as: name};
    recording.lose(kind, call);
    return [call];
  }
  const inner = parts.map((_, place) => `${name}_part${place + 1}`);
  return [{op: 'createGain', as: name, ...(loudness > 1 ? {gain: loudness * ONE} : {})},
          ...parts.flatMap((part, place) => partCalls(recording, sound, part, inner[place], kind)),
          ...inner.map(from => ({op: 'connect', from, to: name}))];
}

// Takes the calls away that are on nodes which are gone, and those that lead into them. What is connected from a frozen
// node comes from what plays its output.
function rewrite(recording, {frozen, dropped}, outputs) {
  const isGone = name => dropped.has(name) || frozen.has(name);
  const isUnwanted = call => dropped.has(call.as) || isGone(call.node) || dropped.has(call.from) || isGone(call.to);
  recording.removeCalls(isUnwanted);
  recording.eachCall((call, list) => {
    if (!frozen.has(call.from)) return;
    const further = call.op === 'disconnect' && call.output === undefined ? outputs.get(call.from) - 1 : 0;
    for (let output = further; output > 0; output--)
      list.splice(list.indexOf(call) + 1, 0, {...call, from: nameOfOutput(call.from, output)});
    if (call.output) Object.assign(call, {from: nameOfOutput(call.from, call.output), output: 0});
  });
  for (const list of ['sources', 'filters', 'analysers', 'panners', 'convolvers'])
    recording[list] = recording[list].filter(({name}) => !isGone(name));
  for (const name of dropped) recording.refusedNames.delete(name);
}

// Buffers that nothing plays any more are taken away.
function dropBuffers(recording, before) {
  const used = usedBuffers(recording);
  recording.removeCalls(call => call.op === 'createBuffer' && before.has(call.as) && !used.has(call.as));
}

function usedBuffers(recording) {
  const used = new Set();
  recording.eachCall(call => { if (call.buffer) used.add(call.buffer); });
  return used;
}

// Puts what plays the voices that lead to one place behind the call that makes the node there.
function playVoices(recording, graph, {to, param, input, from}, sound, limit) {
  const name = recording.newName('voices'), entry = graph.entries.get(to), isNode = to !== 'destination';
  const calls = playingCalls(recording, sound, name, 'frozen-voices');
  calls.push(param ? {op: 'connectParam', from: name, to, param} : {op: 'connect', from: name, to, ...(input ? {input} : {})});
  const list = isNode ? entry.list : recording.main;
  list.splice(isNode ? list.indexOf(entry.creation) + 1 : list.indexOf(recording.start), 0, ...calls);
  recording.frozen.push({name, kind: `${from.size} voices`, why: `the piece would pass the limit of ${limit}`});
}

const samplesOf = tapped => [...tapped.values()].reduce((sum, {channels}) => sum + channels.length * channels[0].length, 0);

// Freezes what has to be, of a recording that is complete. `limit` is what it would pass without its voices frozen. Gives
// whether there was room for it.
export async function freeze(recording, graph, widths, plan, replacements, limit = null) {
  const {frozen, reasons, loops, voices, singing} = plan;
  const taps = [...tapsOf(graph, widths, plan), ...voices], buffers = usedBuffers(recording);
  if (taps.some(({width}) => recording.channels + width > MOST_CHANNELS)) return false;
  const {tapped, distance} = taps.length ? await listenWell(recording, taps, loopsOf(graph).length > 0) : {tapped: new Map(), distance: 0};
  if (samplesOf(tapped) > BUFFER_LIMIT) return false;
  if (distance > SAME) recording.lose('frozen-off', null, distance);
  rewrite(recording, plan, new Map([...frozen].map(name => [name, graph.entries.get(name).node.numberOfOutputs])));
  dropBuffers(recording, buffers);
  const calls = new Map([...frozen].map(name => [name, []]));
  for (const [tap, sound] of tapped) if (tap.from) playVoices(recording, graph, tap, sound, limit);
  for (const [{name, output, isMixed}, sound] of tapped) {
    if (name === undefined) continue;
    if (isMixed) recording.lose('frozen-mixed');
    const kind = loops.has(name) ? 'frozen-loop' : 'frozen-node';
    calls.get(name).push(...playingCalls(recording, sound, nameOfOutput(name, output), kind));
  }
  for (const [name, made] of calls) replacements.put(graph.entries.get(name), made);
  recording.frozen.push(...[...frozen].map(name => ({name, kind: graph.entries.get(name).kind, why: reasons.get(name)})));
  recording.live = await livePart(recording, graph, plan);
  return true;
}
