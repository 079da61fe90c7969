// Performing: a copy of all that a page made, rendered once more in the browser to hear what comes out of single nodes.
//
// The page's calls are done again at the same frames, see journal.js. What no copy can do, as a worklet, is played from
// what the page's own one gave, see taps.js. The copy is right where it renders what the page rendered.

import {bufferOf, contentOf} from './buffers.js';
import {native} from './native.js';
import {contextLike} from './quanta.js';
import {isTapped, tappedSamples} from './taps.js';

const MOST_CHANNELS = 32; // of one rendering

const connect = (from, to, ...places) => native.connect.call(from, to, ...places);

// What is kept of a performance: what comes out of a node, as {name, output, width}; or what comes from some nodes to an
// input or a parameter of another one, as {from, to, param, input, width, interpretation}, where `from` is a set of names.
// The nodes whose names are in `muted` lead nowhere. Connections in `cut`, by their keys as in loops.js, come from what is
// played in their place, a quantum late.
export class Performance {
  constructor(recording, taps, muted = new Set(), cut = new Map()) {
    const {length, channels} = recording;
    this.total = taps.reduce((sum, tap) => sum + tap.width, channels);
    this.context = contextLike(recording, this.total, length);
    Object.assign(this, {recording, taps, muted, cut, outputs: new Map(), inputs: new Map(), taken: new Map(), faults: []});
    this.context.destination.channelInterpretation = 'discrete';
    this.merger = new native.ChannelMergerNode(this.context, {numberOfInputs: this.total});
    connect(this.merger, this.context.destination);
    this.inputs.set('destination', this.track(channels, 0));
    this.inputs.set('listener', this.context.listener);
    let place = channels;
    for (const tap of taps) {
      this.taken.set(tap, this.track(tap.width, place, tap.interpretation));
      place += tap.width;
    }
  }

  // A node whose channels go to some of those that are rendered.
  track(width, place, channelInterpretation = 'speakers') {
    const even = new native.GainNode(this.context, {channelCount: width, channelCountMode: 'explicit', channelInterpretation});
    const splitter = new native.ChannelSplitterNode(this.context, {numberOfOutputs: width});
    connect(even, splitter);
    for (let channel = 0; channel < width; channel++) connect(splitter, this.merger, channel, place + channel);
    return even;
  }

  make(entry) {
    const {context} = this;
    if (entry.tap) this.outputs.set(entry.name, tappedSamples(entry).map(channels => this.player(channels, entry.recording, entry.bornAt)));
    else if (!isTapped(entry)) {
      const copy = new native[entry.kind](context, entry.options);
      this.inputs.set(entry.name, copy);
      this.outputs.set(entry.name, Array.from({length: copy.numberOfOutputs}, (_, output) => [copy, output]));
    }
    this.listenTo(entry.name);
  }

  // Plays what a node gave, from a frame on.
  player(channels, {rate}, frame) {
    if (!channels[0].length) return [new native.GainNode(this.context), 0]; // it was silent
    const source = new native.AudioBufferSourceNode(this.context, {buffer: bufferOf(channels, rate)});
    source.start(frame / rate);
    return [source, 0];
  }

  // Connects a node to the taps that hear it.
  listenTo(name) {
    for (const tap of this.taps) {
      if (tap.name !== name) continue;
      const [node, output] = this.outputs.get(name)[tap.output];
      connect(node, this.taken.get(tap), output);
    }
  }

  // The taps that hear a connection.
  tapsOf({name}, {to, param, input = 0}) {
    return this.taps.filter(tap => tap.from && tap.to === to.name && tap.param === param && tap.input === input && tap.from.has(name))
      .map(tap => this.taken.get(tap));
  }

  connect(entry, place) {
    const found = this.outputs.get(entry.name), target = this.inputs.get(place.to.name);
    if (!found || !target || this.muted.has(entry.name)) return;
    const [node, output] = found[place.output || 0];
    const late = this.cut.get([entry.name, place.output || 0, place.to.name, place.param, place.input || 0].join(' '));
    const [from, its] = late ? this.player(late.channels, this.recording, this.recording.quantum + late.first) : [node, output];
    if (place.param) connect(from, target[place.param], its);
    else connect(from, target, its, place.input || 0);
    for (const tap of this.tapsOf(entry, place)) connect(node, tap, output);
  }

  disconnect(entry, place) {
    const found = this.outputs.get(entry.name);
    if (!found || this.muted.has(entry.name)) return;
    const outputs = place.output === undefined ? found : [found[place.output]];
    if (!place.to) {
      for (const [node, output] of outputs) native.disconnect.call(node, output);
      this.listenTo(entry.name);
    } else if (this.inputs.has(place.to.name))
      for (const [node, output] of new Map(outputs)) this.disconnectFrom(entry, node, output, place);
  }

  disconnectFrom(entry, node, output, place) {
    const target = this.inputs.get(place.to.name);
    const inner = place.output === undefined ? [] : [output, place.param ? undefined : place.input];
    native.disconnect.call(node, place.param ? target[place.param] : target, ...inner.filter(word => word !== undefined));
    for (const tap of this.tapsOf(entry, place)) native.disconnect.call(node, tap);
  }

  // Does a step of the log.
  step({entry, isMade, repeat, connect: to, disconnect: from}) {
    if (isMade) this.make(entry);
    else if (to) this.connect(entry, to);
    else if (from) this.disconnect(entry, from);
    else if (this.inputs.has(entry.name)) repeat(this.inputs.get(entry.name));
  }

  stepAll(steps) {
    for (const step of steps) {
      try {
        this.step(step);
      } catch (fault) {
        this.faults.push(fault);
      }
    }
  }

  // Renders. Gives {rendered, tapped}: the channels of the piece, and those of each tap.
  async render() {
    const {recording, context} = this, byFrame = Map.groupBy(recording.log, ({frame}) => frame);
    for (const [frame, steps] of byFrame) {
      if (frame === 0) this.stepAll(steps);
      else if (frame < recording.length) context.suspend(frame / recording.rate).then(() => {
        this.stepAll(steps);
        context.resume();
      }, fault => { this.faults.push(fault); });
    }
    const channels = contentOf(await context.startRendering()), tapped = new Map();
    let place = recording.channels;
    for (const tap of this.taps) tapped.set(tap, channels.slice(place, place += tap.width));
    return {rendered: channels.slice(0, recording.channels), tapped};
  }
}

// How far two lists of channels are apart at most.
export function apart(one, other) {
  let most = 0;
  one.forEach((samples, channel) => {
    const others = other[channel];
    for (let frame = 0; frame < samples.length; frame++) most = Math.max(most, Math.abs(samples[frame] - others[frame]));
  });
  return most;
}

// Parts taps so that each part has room in one rendering.
export function roomsOf(taps, channels) {
  const rooms = [];
  let left = -1;
  for (const tap of taps) {
    if (tap.width > left) {
      rooms.push([]);
      left = MOST_CHANNELS - channels;
    }
    rooms[rooms.length - 1].push(tap);
    left -= tap.width;
  }
  return rooms;
}
