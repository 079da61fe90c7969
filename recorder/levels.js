// Levels: how loud it is inside filters. Where the calls alone do not say enough, one rendering of the script shows it.
//
// Filters that are lowered run louder inside than they are heard, and waplay saturates at 128. The player performs
// the script with each filter as a row of sections, and listens behind each section.

import {Bounds} from './bounds.js';
import {native} from './native.js';
import {Player} from './playback.js';
import {contextLike} from './quanta.js';
import {impulseSum} from './responses.js';
import {ONE} from './values.js';

const BLOCK = 32768; // what an analyser keeps
const MOST_METERS = 128;
const LOUDEST = 1024; // what a meter can tell
const SATURATION = 128;

// A row of native filters, as one node that has an input and an output.
function nativeRow(context, {row, gain}) {
  const nodes = row.map(({feedforward, feedback}) => context.createIIRFilter(feedforward, feedback));
  const output = context.createGain();
  output.gain.value = gain;
  [...nodes, output].reduce((from, to) => from.connect(to));
  return {nodes, head: nodes[0], output};
}

// A player that measures. `rows` has the row of each filter by its name.
class Measurer extends Player {
  constructor(script, contents, rows, wanted, context) {
    super(script, new Map(), context);
    this.wanted = wanted; // the names of the rows that are listened to
    this.contents = contents; // of createBuffer calls: the samples
    this.rows = rows;
    this.quantum = script.context.quantum;
    this.meters = [];
    this.meterOfName = new Map();
    this.blocks = new Map(); // frame -> what is done there
  }

  // Each filter has a meter, or shares one where there are many: then the sum of all is what is told of each.
  listenTo(name, nodes) {
    const place = this.meterOfName.size % MOST_METERS;
    if (!this.meters[place]) this.meters[place] = new Meter(this.context);
    for (const node of nodes) this.meters[place].listenTo(node);
    this.meterOfName.set(name, this.meters[place]);
  }

  createFilter(call) {
    const found = this.rows.get(call.as);
    if (!found) return super.createFilter(call);
    const {nodes, head, output} = nativeRow(this.context, found);
    this.heads.set(call.as, head);
    this.bind(call, output);
    if (this.wanted.has(call.as)) this.listenTo(call.as, nodes.length > 1 ? [...nodes, output] : [output]);
  }

  createBuffer(call) {
    super.createBuffer(call);
    const buffer = this.named.get(call.as), samples = this.contents.get(call) || [];
    samples.forEach((channel, number) => buffer.copyToChannel(Float32Array.from(channel, whole => whole / 2 ** 24), number));
  }

  // The script's suspension may be at the same frame as one of the meters.
  at(frame, action) {
    const block = this.blocks.get(Math.ceil(frame / this.quantum) * this.quantum);
    if (block && block.isOwn) Object.assign(block, {action, isOwn: false});
    else super.at(frame, action);
  }

  // Reads the meters often enough that they miss nothing.
  readAll() {
    for (let frame = BLOCK; frame < this.context.length; frame += BLOCK) {
      const block = {action: () => { this.context.resume(); }, isOwn: true};
      super.at(frame, () => {
        this.read();
        this.blocks.delete(frame);
        block.action();
      });
      this.blocks.set(frame, block);
    }
  }

  read() {
    for (const meter of this.meters) meter.read();
  }
}

// Keeps the greatest sum of what it listens to. Signs are taken away first, and all is made so small that it passes
// the shaper that does it.
class Meter {
  constructor(context) {
    this.context = context;
    this.most = 0;
    this.analyser = new native.AnalyserNode(context, {fftSize: BLOCK});
    const silent = context.createGain();
    silent.gain.value = 0;
    this.analyser.connect(silent).connect(context.destination);
    this.samples = new Float32Array(BLOCK);
  }

  listenTo(node) {
    const smaller = this.context.createGain(), shaper = this.context.createWaveShaper();
    smaller.gain.value = 1 / LOUDEST;
    shaper.curve = Float32Array.of(1, 0, 1);
    node.connect(smaller).connect(shaper).connect(this.analyser);
  }

  read() {
    this.analyser.getFloatTimeDomainData(this.samples);
    for (const sample of this.samples) if (sample > this.most) this.most = sample;
  }
}

// Renders the script, and gives of each wanted row how loud it is at most: a map of {level, isTooLoud} by name. Meters
// hear the mean of both channels, so the louder one is up to twice as loud.
async function measured(recording, rows, wanted) {
  const {channels, length} = recording;
  const context = contextLike(recording, channels, length);
  const contents = new Map(recording.versions.map(({call, samples}) => [call, samples || []]));
  const player = new Measurer({context: recording}, contents, rows, wanted, context);
  player.readAll();
  player.perform(recording.main);
  await player.rendering;
  player.read();
  const isShared = player.meterOfName.size > MOST_METERS;
  return new Map([...player.meterOfName].map(([name, {most}]) =>
    [name, {level: 2 * LOUDEST * most, isTooLoud: !isShared && LOUDEST * most > SATURATION}]));
}

// How much louder than its input it can be inside a row, and behind it.
function gainInside({row, gain}) {
  const inside = row.map((_, place) => impulseSum(row.slice(0, place + 1)));
  return Math.max(...inside, inside[inside.length - 1] * Math.abs(gain));
}

function peakOfSamples(samples) {
  let most = 0;
  for (const channel of samples || []) for (const sample of channel) most = Math.max(most, Math.abs(sample));
  return most / ONE;
}

const sumOfSamples = samples => (samples || []).reduce((most, channel) =>
  Math.max(most, channel.reduce((sum, sample) => sum + Math.abs(sample), 0)), 0) / ONE;

// What is 4 channels or more is mixed down louder than its channels are.
const isWide = call => call.channels > 2 || (call.op === 'createChannelMerger' && (call.numberOfInputs === undefined || call.numberOfInputs > 2));

// How loud it is at most in each of these rows: a map of {level, isTooLoud} by name. A level of at most `enough` that
// the calls show is taken; only where there is more, the script is rendered.
export async function levelsOf(recording, rows, enough) {
  const gains = new Map(), peaks = new Map(recording.versions.map(({name, samples}) => [name, peakOfSamples(samples)]));
  const known = new Map([...rows].map(([name, plan]) => [name, JSON.stringify([plan.row, plan.gain])]));
  const gainOf = name => {
    const key = known.get(name);
    if (key === undefined) return 0;
    if (!gains.has(key)) gains.set(key, gainInside(rows.get(name)));
    return gains.get(key);
  };
  let wide = false;
  recording.eachCall(call => { wide = wide || isWide(call); });
  const contents = new Map(recording.versions.map(({name, samples}) => [name, samples]));
  const bounds = new Bounds(recording.main, gainOf, name => peaks.get(name) || 0, name => sumOfSamples(contents.get(name)));
  const levels = new Map([...rows.keys()].map(name => [name, {level: wide ? Infinity : bounds.at(name), isTooLoud: false}]));
  const wanted = new Set([...levels].filter(([, {level}]) => !(level <= enough)).map(([name]) => name));
  if (wanted.size) for (const [name, level] of await measured(recording, rows, wanted)) levels.set(name, level);
  return levels;
}
