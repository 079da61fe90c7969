// What a script has of convolvers: the calls are performed here by the rules of the recommendation, for whole numbers.

import assert from 'node:assert/strict';
import {test} from 'node:test';
import {lowerConvolvers, plansOfConvolvers, takeResponse, weightOfConvolver, writeConvolvers} from '../convolvers.js';
import {LONGEST, normalizationScale} from '../convolving.js';
import {Recording} from '../recording.js';
import {Replacements} from '../replacing.js';
import {ONE} from '../values.js';

const MONO = {input: () => new Set([1])}, BOTH = {input: () => new Set([1, 2])};
const floats = (...samples) => Float32Array.from(samples);

// A recording with a convolver between a source and the destination.
function recorded({length = 1000, rate = 48000, normalize = false} = {}) {
  const recording = new Recording({channels: 2, length, rate, quantum: 128});
  const creation = {op: 'createConvolver', as: 'convolver1', disableNormalization: true};
  const entry = {recording, name: 'convolver1', kind: 'ConvolverNode', node: {normalize}, creation, list: recording.main, bornAt: 0, responses: []};
  recording.convolvers.push(entry);
  recording.emit([creation, {op: 'connect', from: 'source', to: 'convolver1'}, {op: 'connect', from: 'convolver1', to: 'destination'}]);
  return {recording, entry};
}

// Writes it, and gives the calls of the main list.
function written({recording}) {
  const replacements = new Replacements(recording);
  lowerConvolvers(recording, plansOfConvolvers(recording, MONO), replacements);
  replacements.apply();
  writeConvolvers(recording);
  return recording.main;
}

const kindsOf = ({recording}) => [...new Set(recording.losses.map(({kind}) => kind))].sort();

// One channel mixed to two is heard in both; two to one are their mean.
const mixed = (channels, count) => channels.length === count ? channels
  : count === 2 ? [channels[0], channels[0]] : [channels[0].map((sample, frame) => (sample + channels[1][frame]) / 2)];

function sum(all) {
  const count = Math.max(...all.map(channels => channels.length));
  return Array.from({length: count}, (_, channel) => all.map(channels => mixed(channels, count)[channel])
    .reduce((one, other) => one.map((sample, frame) => sample + other[frame])));
}

const convolved = (samples, response) => samples.map((_, frame) =>
  response.reduce((whole, tap, place) => place <= frame ? whole + tap * samples[frame - place] : whole, 0));

// What the destination hears at the end of the calls.
class Heard {
  constructor({recording}, source) {
    this.calls = recording.main;
    this.contents = new Map(recording.versions.map(({name, samples}) => [name, [...samples[0]].map(whole => whole / ONE)]));
    this.source = source;
    this.rate = recording.rate;
  }

  input(name, place = 0) {
    const edges = this.calls.filter(({op, to, input = 0}) => op === 'connect' && to === name && input === place);
    return edges.length ? sum(edges.map(({from, output}) => this.output(from, output))) : [this.source[0].map(() => 0)];
  }

  output(name, output = 0) {
    if (name === 'source') return this.source;
    const {op, ...call} = this.calls.find(({as}) => as === name), mode = this.calls.find(each => each.op === 'setChannelCountMode' && each.node === name);
    if (op === 'createChannelMerger') return [0, 1].map(place => mixed(this.input(name, place), 1)[0]);
    const heard = mode && mode.value === 'explicit' ? mixed(this.input(name), 2) : this.input(name);
    switch (op) {
      case 'createGain': return heard.map(samples => samples.map(sample => sample * (call.gain ?? ONE) / ONE));
      case 'createChannelSplitter': return [heard[output]];
      case 'createConvolver': return heard.map(samples => convolved(samples, this.contents.get(call.buffer)));
      case 'createDelay': {
        const frames = Math.round(call.delayTime / ONE * this.rate);
        return heard.map(samples => samples.map((_, frame) => frame < frames ? 0 : samples[frame - frames]));
      }
    }
    throw new Error(op);
  }
}

const heardOf = (it, source) => new Heard(it, source).input('destination').map(samples => [...samples]);

test('a response of one channel is written as it is, for both channels of the input', () => {
  const it = recorded();
  takeResponse(it.entry, [floats(1, 0.5, 0)]);
  assert.deepEqual(written(it)[1], {op: 'createConvolver', as: 'convolver1', disableNormalization: true, buffer: 'response1'});
  assert.deepEqual(it.recording.versions[0].samples[0], Int32Array.of(ONE, ONE / 2, 0));
  assert.deepEqual(heardOf(it, [[1, 0, 0], [0, 2, 0]]), [[1, 0.5, 0], [0, 2, 1]]);
  assert.deepEqual(heardOf(it, [[0, 1, 0]]), [[0, 1, 0.5]]);
  assert.deepEqual(kindsOf(it), []);
});

test('a convolver without a response is silent, and none is refused for its normalization', () => {
  const it = recorded({normalize: true});
  assert.deepEqual(written(it)[0], {op: 'createConvolver', as: 'convolver1', disableNormalization: true});
  takeResponse(it.entry, null);
  assert.deepEqual(plansOfConvolvers({...it.recording, convolvers: [it.entry]}, BOTH).get(it.entry), {form: 'kept'});
});

test('a normalized response is scaled', () => {
  const it = recorded({normalize: true}), response = floats(0.5, -0.25), scale = normalizationScale([response], 48000);
  takeResponse(it.entry, [response]);
  written(it);
  assert.deepEqual([...it.recording.versions[0].samples[0]], [0.5, -0.25].map(sample => Math.round(Math.fround(sample * scale) * ONE)));
  assert.deepEqual(kindsOf(it), ['lowered-convolver', 'sample-rounded']);
});

test('the response counts that is there when time begins, with the normalization of its moment', () => {
  const it = recorded({normalize: true});
  takeResponse(it.entry, [floats(0.5, 0.25)]);
  takeResponse(it.entry, null);
  it.entry.node.normalize = false;
  takeResponse(it.entry, [floats(0.25)]);
  it.entry.node.normalize = true; // too late
  written(it);
  assert.deepEqual(heardOf(it, [[1, 0]]), [[0.25, 0]]);
  assert.deepEqual(kindsOf(it), []);
});

test('of two channels each is heard in its own', () => {
  const it = recorded();
  takeResponse(it.entry, [floats(1, 0.5), floats(0, 0.25)]);
  written(it);
  assert.deepEqual(heardOf(it, [[1, 0, 0]]), [[1, 0.5, 0], [0, 0.25, 0]]);
  assert.deepEqual(heardOf(it, [[1, 0, 0], [0, 8, 0]]), [[1, 0.5, 0], [0, 0, 2]]);
  assert.deepEqual(kindsOf(it), ['lowered-convolver']);
});

test('of four channels two are heard on each side', () => {
  const it = recorded();
  takeResponse(it.entry, [floats(1, 0), floats(0, 0.5), floats(0.25, 0), floats(0, 0.125)]);
  written(it);
  assert.deepEqual(heardOf(it, [[1, 0, 0]]), [[1.25, 0, 0], [0, 0.625, 0]]);
  assert.deepEqual(heardOf(it, [[1, 0, 0], [0, 16, 0]]), [[1, 4, 0], [0, 0.5, 2]]);
});

test('a long response comes in parts behind delays', () => {
  for (const channels of [1, 2]) {
    const it = recorded(), response = new Float32Array(2 * LONGEST), length = response.length + 1;
    for (const place of [0, 16124, 16125, 20000, 32250, 32767]) response[place] = (place % 5 + 1) / 8;
    takeResponse(it.entry, Array(channels).fill(response));
    written(it);
    const impulse = new Float32Array(length);
    impulse[0] = 1;
    for (const found of new Heard(it, [impulse]).input('destination')) assert.deepEqual(Float32Array.from(found), floats(...response, 0));
    assert.equal(it.recording.main.filter(({op}) => op === 'createConvolver').length, 3 * channels);
  }
});

test('a loud response is made softer, and louder again', () => {
  const it = recorded();
  takeResponse(it.entry, [floats(7, -0.5)]);
  written(it);
  assert.ok(it.recording.versions[0].samples[0].every(whole => Math.abs(whole) <= 2 * ONE));
  assert.deepEqual(heardOf(it, [[1, 0, 0]]), [[7, -0.5, 0]]);
});

test('a response that is set later comes with what hears it, and takes the one before away', () => {
  const it = recorded(), {recording, entry} = it, later = [];
  takeResponse(entry, [floats(1, 0.5)]);
  recording.emit([{op: 'suspend', time: 128, then: later}]);
  Object.assign(recording, {current: later, now: 128});
  takeResponse(entry, [floats(9)]);
  takeResponse(entry, [floats(0.25, 0.125)]);
  recording.emit([{op: 'resume'}]);
  written(it);
  assert.deepEqual(later.map(({op, from, to, as}) => [op, from || as, to].filter(Boolean).join(' ')), [
    'disconnect convolver1_1 convolver1_2', 'disconnect convolver1_2 convolver1', 'createBuffer response2', 'createConvolver convolver1_3',
    'connect convolver1_1 convolver1_3', 'connect convolver1_3 convolver1', 'resume']);
  assert.deepEqual(heardOf(it, [[1, 0, 0]]), [[1, 0.5, 0]]);
});

test('without rewriting, what waplay refuses is told by its word', () => {
  const long = new Float32Array(LONGEST + 1), late = recorded();
  for (const [kind, channels, normalize] of [['normalization', [floats(1), floats(1)], true], ['response-channels', [long, long], false],
    ['long-response', [long], false], ['loud-response', [floats(0, -2.5)], false]]) {
    const it = recorded({normalize});
    takeResponse(it.entry, channels);
    writeConvolvers(it.recording);
    assert.deepEqual(kindsOf(it), [kind]);
    assert.equal(it.entry.creation.disableNormalization, normalize ? undefined : true);
  }
  Object.assign(late.recording, {current: [], now: 128});
  takeResponse(late.entry, [floats(1)]);
  writeConvolvers(late.recording);
  assert.deepEqual(kindsOf(late), ['late-response']);
});

test('what would take too long is not written', () => {
  const it = recorded({length: 2 ** 22});
  takeResponse(it.entry, [new Float32Array(2 ** 15), new Float32Array(2 ** 15)]);
  assert.deepEqual(plansOfConvolvers(it.recording, MONO).get(it.entry), {why: 'its response is too long'});
  assert.ok(weightOfConvolver(it.entry) > 8);
  it.entry.responses = [];
  takeResponse(it.entry, [new Float32Array(2 ** 14)]);
  assert.deepEqual(plansOfConvolvers(it.recording, MONO).get(it.entry), {form: 'kept'});
});

test('a response of one channel is not written where one channel is heard and two are', () => {
  for (const [channels, wanted] of [[1, {why: 'it hears one channel and two'}], [2, {form: 'parted'}]]) {
    const it = recorded();
    takeResponse(it.entry, Array(channels).fill(floats(1)));
    assert.deepEqual(plansOfConvolvers(it.recording, BOTH).get(it.entry), wanted);
  }
});
