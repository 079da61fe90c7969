// Graphs: what leads to what, when it sounds, and how many channels there are. Worked out by hand.

import assert from 'node:assert/strict';
import {test} from 'node:test';
import {Graph} from '../graph.js';
import {passedLimit, voicesOf} from '../voices.js';
import {Widths} from '../widths.js';

const NODE = {numberOfOutputs: 1, numberOfInputs: 1, channelCount: 2, channelCountMode: 'max', channelInterpretation: 'speakers'};

// A graph of nodes, as {name: entry}, and of connections, as 'from to' or 'from to input'.
function graphOf(nodes, edges) {
  const entries = new Map(Object.entries(nodes).map(([name, entry]) => [name, {name, creation: {}, ...entry, node: {...NODE, ...entry.node}}]));
  entries.set('destination', {name: 'destination', kind: 'destination', node: {...NODE, numberOfOutputs: 0}});
  const calls = edges.map(words => words.split(' ')).map(([from, to, input]) => ({op: 'connect', from, to, input: +input || 0}));
  const sources = [...entries.values()].filter(entry => entry.startCall);
  const recording = {entries, sources, rate: 48000, length: 48000, channels: 2, outcomes: new Map(), eachCall: visit => calls.forEach(visit)};
  return new Graph(recording);
}

const tone = (startTime = 0, stopTime) => ({kind: 'OscillatorNode', startCall: {}, startTime, stopTime});
const buffer = (...widths) => ({kind: 'AudioBufferSourceNode', startCall: {}, startTime: 0, widths});
const gain = (node = {}) => ({kind: 'GainNode', node});
const sorted = names => [...names].sort();

test('what a node hears goes back through all connections', () => {
  const graph = graphOf({a: tone(), b: tone(), c: gain(), d: gain()}, ['a c', 'b d', 'c destination']);
  assert.deepEqual(sorted(graph.upstream(['destination'])), ['a', 'c', 'destination']);
  assert.deepEqual(sorted(graph.downstream(['b'])), ['b', 'd']);
  assert.deepEqual(sorted(graph.upstream(['destination'], name => name !== 'c')), ['c', 'destination']);
});

test('a node sounds from the first frame of what leads to it', () => {
  const graph = graphOf({a: tone(0.5), b: tone(100.25 / 48000), c: gain(), d: gain()}, ['a c', 'b c', 'c d']);
  assert.equal(graph.soundingOf('d'), 101);
  assert.equal(graphOf({c: gain()}, []).soundingOf('c'), Infinity);
});

test('widths are those of what may sound', () => {
  const graph = graphOf({mono: tone(), stereo: buffer(2), both: gain(), one: gain({channelCount: 1, channelCountMode: 'explicit'}), merger:
    {kind: 'ChannelMergerNode', node: {numberOfInputs: 3}}, panner: {kind: 'StereoPannerNode', node: {channelCountMode: 'clamped-max'}}},
  ['mono both', 'stereo both', 'both one', 'mono merger 2', 'merger panner']);
  const widths = new Widths(graph), of = name => sorted(widths.of(name));
  assert.deepEqual(of('both'), [1, 2]);
  assert.deepEqual(of('one'), [1]);
  assert.deepEqual(of('merger'), [3]);
  assert.deepEqual(sorted(widths.input(graph.entries.get('panner'))), [2]);
});

test('widths go round in a loop', () => {
  const graph = graphOf({stereo: buffer(2), a: {kind: 'DelayNode'}, b: gain()}, ['stereo a', 'a b', 'b a']);
  assert.deepEqual(sorted(new Widths(graph).of('b')), [2]);
});

test('voices that end lead to the trunk, and what does not end stays', () => {
  const nodes = {bus: gain(), drone: tone()}, edges = ['drone bus', 'bus destination'];
  for (let number = 0; number < 600; number++) {
    nodes[`t${number}`] = tone(number / 1000, number / 1000 + 0.1);
    nodes[`g${number}`] = gain();
    edges.push(`t${number} g${number}`, `g${number} bus`);
  }
  const graph = graphOf(nodes, edges), {recording} = graph, heard = graph.upstream(['destination']);
  assert.equal(passedLimit(recording, graph, {heard}), '1024 nodes');
  const [voices, ...others] = voicesOf(recording, graph, new Widths(graph));
  assert.equal(others.length, 0);
  assert.equal(voices.to, 'bus');
  assert.equal(voices.width, 1);
  assert.equal(voices.from.size, 600);
  assert.ok(voices.from.has('g7') && !voices.from.has('drone'));
  assert.equal(passedLimit(recording, graph, {heard: new Set(['bus', 'drone', 'destination'])}), null);
});
