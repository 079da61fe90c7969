// Convolvers: their responses are taken when the page sets them, and written once rendering is over.
//
// A script's convolver has one response of one channel from its birth on. Where a page's has more of them, more channels or a
// longer one, several come in its place, between a gain that hears what the convolver hears and one that has its name.

import {LONGEST, LOUDEST, normalizationScale, partLength, partsOf, softening, waysOf} from './convolving.js';
import {ONE, loseOfList, nearestFixed, nearestFixedList} from './values.js';

const MARK = 'response';      // what stands in a list where a response is set, until the script is written
const ROOM = 128;             // frames by which the longest time of a delay is above its time
const MOST_WORK = 2 ** 37;    // products of samples that the parts of responses may take
const MOST_DELAYED = 2 ** 21; // frames in all delays between the parts of responses

// A page set the buffer of a convolver: its channels, or null.
export function takeResponse(entry, channels) {
  const {recording, node, responses} = entry, {current: list, now: frame} = recording, last = responses.at(-1);
  if (recording.phase === 'complete') {
    if (recording.isRealTime) recording.lose('call-after-end', entry.creation);
    return;
  }
  if (recording.phase === 'rendering' && !recording.sameTurn) recording.lose('call-while-rendering', entry.creation);
  if (last && last.list === list && last.frame === frame) { // nothing was heard of that one
    responses.pop();
    if (last.mark) list.splice(list.indexOf(last.mark), 1);
  }
  const isOfBirth = !responses.length && list === entry.list && frame === entry.bornAt;
  const mark = isOfBirth ? null : {op: MARK, node: entry.name};
  if (mark) list.push(mark);
  responses.push({list, frame, mark, channels, isNormalized: Boolean(channels) && node.normalize});
}

// The samples that a response stands for.
function samplesOf({channels, isNormalized}, rate) {
  if (!isNormalized) return channels;
  const scale = normalizationScale(channels, rate);
  return channels.map(samples => samples.map(sample => sample * scale));
}

// The response that a convolver has from its birth on, or null.
const responseOfBirth = ({responses: [first]}) => first && !first.mark && first.channels ? first : null;

const isLate = ({responses}) => responses.some(({mark, channels}, place) => mark && (place > 0 || channels));

// Why waplay refuses a response as it is, as a feature word, or null.
function refusalOf({channels, isNormalized}) {
  if (isNormalized) return 'normalization';
  if (channels.length > 1) return 'response-channels';
  if (channels[0].length > LONGEST) return 'long-response';
  return channels[0].some(sample => Math.abs(sample) > LOUDEST) ? 'loud-response' : null;
}

// The call that makes a buffer of whole numbers.
function bufferCall(recording, lists) {
  const call = {op: 'createBuffer', as: recording.newName('response'), channels: lists.length, length: lists[0].length, rate: recording.rate};
  recording.versions.push({name: call.as, call, samples: lists});
  return call;
}

// Lets the script's own convolver have these samples.
function putResponse({recording, list, creation}, channels) {
  const lists = channels.map(nearestFixedList), buffer = bufferCall(recording, lists.map(({wholes}) => wholes));
  for (const found of lists) loseOfList(recording, found, buffer);
  list.splice(list.indexOf(creation), 0, buffer);
  Object.assign(creation, {buffer: buffer.as, disableNormalization: true});
}

// Writes the convolvers that nothing came in the place of. They have the response of their birth, which waplay may refuse.
export function writeConvolvers(recording) {
  for (const entry of recording.convolvers) {
    const {creation} = entry, response = responseOfBirth(entry), refusal = response && refusalOf(response);
    if (response) putResponse(entry, response.channels);
    if (refusal) recording.lose(refusal, creation);
    if (refusal === 'normalization') delete creation.disableNormalization;
    if (isLate(entry)) recording.lose('late-response', creation);
  }
  recording.convolvers = [];
  recording.removeCalls(call => call.op === MARK);
}

// Whether the script's own convolver is enough: 'kept' or 'scaled', or else 'parted'.
function formOf(entry) {
  const [first] = entry.responses;
  if (isLate(entry)) return 'parted';
  if (!first || !first.channels) return 'kept'; // it is silent
  const isEnough = first.channels.length === 1 && first.channels[0].length <= LONGEST &&
    softening(samplesOf(first, entry.recording.rate)) === 1;
  if (!isEnough) return 'parted';
  return first.isNormalized ? 'scaled' : 'kept';
}

// The frames of each part of a response.
const stepOf = (length, rate) => length > LONGEST ? partLength(rate) : LONGEST;

// What a response takes: {convolvers, delays, delayed, work}. Of one with one channel both channels of the input may be heard.
function costOf({channels}, {rate, length}) {
  if (!channels) return {convolvers: 0, delays: 0, delayed: 0, work: 0};
  const {length: taps} = channels[0], step = stepOf(taps, rate), parts = Math.ceil(taps / step);
  const delays = (parts - 1) * Math.min(2, channels.length);
  return {convolvers: parts * channels.length, delays, delayed: delays * (step + ROOM), work: taps * Math.max(2, channels.length) * length};
}

// How many nodes of a script a convolver becomes.
export function weightOfConvolver(entry) {
  if (formOf(entry) !== 'parted') return 1;
  return entry.responses.reduce((sum, response) => {
    const {convolvers, delays} = costOf(response, entry.recording);
    return sum + convolvers + delays + 4;
  }, 2);
}

// Whether both channels of a response of one channel go on with one history each. In browsers a channel that is not there
// stands still.
const isSteady = ({name, node, responses}, widths) => widths.input({name, node}).size < 2 ||
  responses.every(({channels}) => !channels || channels.length > 1);

// The plans of all convolvers: {form}, or {why} where one cannot be written.
export function plansOfConvolvers(recording, widths) {
  const plans = new Map();
  let work = 0, delayed = 0;
  for (const entry of recording.convolvers) {
    const form = formOf(entry), costs = form === 'parted' ? entry.responses.map(response => costOf(response, recording)) : [];
    const its = key => costs.reduce((sum, cost) => sum + cost[key], 0);
    const isFine = work + its('work') <= MOST_WORK && delayed + its('delayed') <= MOST_DELAYED;
    if (!isSteady(entry, widths)) plans.set(entry, {why: 'it hears one channel and two'});
    else if (!isFine) plans.set(entry, {why: 'its response is too long'});
    else plans.set(entry, {form});
    if (!plans.get(entry).form) continue;
    work += its('work');
    delayed += its('delayed');
  }
  return plans;
}

// The calls between the head of a convolver and the node of its name.
class Wiring {
  constructor({recording, name}) {
    Object.assign(this, {recording, name, head: `${name}_1`, count: 1, calls: []});
  }

  make(op, fields) {
    const call = {op, as: `${this.name}_${++this.count}`, ...fields};
    this.calls.push(call);
    return call.as;
  }

  connect(from, to, output = 0, input = 0) {
    this.calls.push({op: 'connect', from, to, ...(output ? {output} : {}), ...(input ? {input} : {})});
  }

  // Takes the calls that were made, and those that disconnect them from the head and from the node of the name.
  taken() {
    const {calls} = this, isOuter = ({op, from, to}) => op === 'connect' && (from === this.head || to === this.name);
    this.calls = [];
    return {calls, undo: calls.filter(isOuter).map(({from, to}) => ({op: 'disconnect', from, to}))};
  }

  // A delay behind an output of a node.
  delayed(from, output, frames) {
    const {rate} = this.recording, [delayTime, maxDelayTime] = [frames, frames + ROOM].map(count => nearestFixed(count / rate).whole);
    const name = this.make('createDelay', {maxDelayTime, delayTime});
    this.connect(from, name, output);
    return name;
  }

  convolver(from, output, samples, target, input) {
    const buffer = bufferCall(this.recording, [samples]);
    this.calls.push(buffer);
    const name = this.make('createConvolver', {buffer: buffer.as, disableNormalization: true});
    this.connect(from, name, output);
    this.connect(name, target, 0, input);
  }

  // Convolves an output of a node in some ways, {wholes, to}, each of which leads to an input of the target.
  convolve(source, output, ways, target) {
    const step = stepOf(ways[0].wholes.length, this.recording.rate);
    const all = ways.map(({wholes, to}) => ({to, parts: partsOf(wholes, step)})), count = Math.max(...all.map(({parts}) => parts.length));
    for (let place = 0, [from, its] = [source, output]; place < count; place++) {
      if (place) [from, its] = [this.delayed(from, its, step), 0];
      for (const {to, parts} of all)
        if (parts[place] && parts[place].some(sample => sample !== 0)) this.convolver(from, its, parts[place], target, to);
    }
  }

  // Convolves with a response of several channels. An input of one channel is heard as two that are alike.
  convolveChannels(lists, target) {
    const even = this.make('createGain', {});
    this.calls.push({op: 'setChannelCountMode', node: even, value: 'explicit'});
    const splitter = this.make('createChannelSplitter', {numberOfOutputs: 2}), merger = this.make('createChannelMerger', {numberOfInputs: 2});
    for (const [from, to] of [[this.head, even], [even, splitter], [merger, target]]) this.connect(from, to);
    const ways = waysOf(lists.length).map(way => ({...way, wholes: lists[way.channel]}));
    for (const channel of [0, 1]) this.convolve(splitter, channel, ways.filter(({from}) => from === channel), merger);
  }

  // Lets a response be heard. What rounding loses is told of a call.
  respond(response, call) {
    const channels = samplesOf(response, this.recording.rate), soft = softening(channels);
    const lists = channels.map(samples => nearestFixedList(samples.map(sample => sample / soft)));
    for (const list of lists) loseOfList(this.recording, list, call);
    let target = this.name;
    if (soft > 1) {
      target = this.make('createGain', {gain: soft * ONE});
      this.connect(target, this.name);
    }
    if (lists.length > 1) this.convolveChannels(lists.map(({wholes}) => wholes), target);
    else this.convolve(this.head, 0, [{wholes: lists[0].wholes, to: 0}], target);
  }
}

// Lets several nodes come in the place of a convolver.
function partConvolver(entry, replacements) {
  const wiring = new Wiring(entry), end = {op: 'createGain', as: entry.name}, {head} = wiring;
  const calls = [{op: 'createGain', as: head}, {op: 'setChannelCountMode', node: head, value: 'clamped-max'}, end];
  let before = [];
  for (const response of entry.responses) {
    if (response.channels) wiring.respond(response, end);
    const {calls: made, undo} = wiring.taken();
    if (response.mark) replacements.putAt(response.mark, [...before, ...made]);
    else calls.push(...made);
    before = undo;
  }
  entry.recording.lose('lowered-convolver', end);
  replacements.put(entry, calls, head);
}

// Writes the convolvers that have a plan.
export function lowerConvolvers(recording, plans, replacements) {
  for (const [entry, {form}] of plans) {
    const response = responseOfBirth(entry);
    if (form === 'parted') partConvolver(entry, replacements);
    else if (response) putResponse(entry, samplesOf(response, recording.rate));
    if (form === 'scaled') recording.lose('lowered-convolver', entry.creation);
  }
  recording.convolvers = recording.convolvers.filter(entry => !plans.has(entry));
}
