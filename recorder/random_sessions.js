// Random sessions: pages that nobody wrote, for the tests. tools/random-sessions records and judges them.
//
// A session makes nodes of most kinds, connects them without cycles, starts its sources, automates parameters,
// and changes some of all this later: at suspensions, or in a real-time piece at timers.
//
// Without lowering all times lie on frames and all values on multiples of 2^-10, so that nothing is rounded.
// With it there are oscillators, biquads, filters of high orders, panners, nodes that are frozen, targets, exponential
// ramps, cancels and holds, and times between frames. Browsers let nodes that hear nothing, or that nothing hears, stand still: so what is
// automated or has a history hears a hum all the time, and is heard by a silent gain.

import {play, textsOf} from './playback.js';

const SESSION_RATE = 32768; // a power of two: every frame is a time without rounding
const SESSION_LENGTH = 8192;
const SUSPENSIONS = [1024, 2048, 4096];

// Numbers from 0 to below `limit`, the same ones for the same seed.
function drawer(seed) {
  let state = Math.imul(seed, 2654435761) >>> 0;
  return limit => {
    state = (Math.imul(state, 1664525) + 1013904223) >>> 0;
    return Math.floor(state / 2 ** 32 * limit);
  };
}

const product = (one, other) => {
  const terms = new Array(one.length + other.length - 1).fill(0);
  one.forEach((term, place) => other.forEach((factor, further) => { terms[place + further] += term * factor; }));
  return terms;
};

// The size of a response at an angle of the unit circle.
function sizeAt(terms, angle) {
  const real = terms.reduce((sum, term, power) => sum + term * Math.cos(power * angle), 0);
  const other = terms.reduce((sum, term, power) => sum + term * Math.sin(power * angle), 0);
  return Math.hypot(real, other);
}

export class RandomSession {
  constructor(seed, {canLower, quantum, context}) {
    this.draw = drawer(seed);
    this.canLower = canLower;
    this.context = context || new OfflineAudioContext({
      numberOfChannels: 1 + this.draw(4), length: SESSION_LENGTH, sampleRate: SESSION_RATE, renderSizeHint: quantum});
    this.nodes = [];
    this.now = 0;           // the frame at which changes are made
    this.cancels = this.draw(3) === 0; // browsers depart from the recommendation in some of them
    this.scratch = new Float32Array(8); // an array that is used again and again
  }

  one(list) { return list[this.draw(list.length)]; }
  value() { return (this.draw(33) - 16) / 16; }
  between(low, high) { return low + (high - low) * this.draw(1 << 20) / (1 << 20); }
  seconds(from, frames) { return (from + this.draw(frames) + this.fraction()) / SESSION_RATE; }
  fraction() { return this.canLower && this.draw(2) ? 0.375 : 0; }

  buffer(channels = 1 + this.draw(3)) {
    const buffer = this.context.createBuffer(channels, 200 + this.draw(800), SESSION_RATE);
    for (let channel = 0; channel < buffer.numberOfChannels; channel++)
      buffer.getChannelData(channel).forEach((_, frame, samples) => { samples[frame] = (this.draw(2049) - 1024) / 1024; });
    return buffer;
  }

  // Coefficients of a stable filter whose response has a size of 1 at most. Some have sections that are equal.
  coefficients() {
    const order = 1 + this.draw(this.canLower ? 9 : 2);
    let above = [1], below = [1], section = null;
    for (let left = order; left > 0; left -= 2) {
      if (!section || this.draw(4)) {
        const radius = this.one([0.3, 0.7, 0.9, 0.97]), angle = Math.PI * this.one([0.02, 0.1, 0.3, 0.6, 0.9]);
        const poles = [1, -2 * radius * Math.cos(angle), radius * radius];
        section = {poles, zeros: [1, this.one([2, -2, 0, 0.5]), this.one([1, 0.25, -1])]};
      }
      const isHalf = left === 1;
      below = product(below, isHalf ? [1, -section.poles[2]] : section.poles);
      above = product(above, isHalf ? [1, this.one([1, -1, 0])] : section.zeros);
    }
    let greatest = 0;
    for (let step = 0; step <= 512; step++) {
      const angle = Math.PI * step / 512;
      greatest = Math.max(greatest, sizeAt(above, angle) / sizeAt(below, angle));
    }
    above = above.map(term => term / greatest);
    return this.draw(5) ? {above, below} : {above: above.slice(0, Math.max(1, above.length - 1 - this.draw(2))), below};
  }

  filter() {
    const {above, below} = this.coefficients();
    const filter = this.context.createIIRFilter(above, below);
    above.fill(0); // a page may use its arrays again
    return Object.assign(filter, {channelCount: 2, channelCountMode: 'explicit'});
  }

  biquad() {
    return new BiquadFilterNode(this.context, {
      type: this.one(['lowpass', 'highpass', 'bandpass', 'notch', 'allpass', 'peaking', 'lowshelf', 'highshelf']),
      frequency: this.one([30, 80, 200, 1000, 4000]), Q: this.one([0.5, 1, 4]), gain: this.one([-6, 3]), detune: this.one([0, 100]),
      channelCount: 2, channelCountMode: 'explicit'});
  }

  oscillator() {
    const {context} = this, options = {frequency: this.between(40, 3000), detune: this.one([0, 0, -700, 50])};
    if (this.draw(3)) return new OscillatorNode(context, {type: this.one(['sine', 'square', 'sawtooth', 'triangle']), ...options});
    return new OscillatorNode(context, {periodicWave: this.wave(), ...options});
  }

  wave() {
    this.scratch.forEach((_, place) => { this.scratch[place] = place ? this.value() : 0; });
    return this.context.createPeriodicWave(this.scratch, this.scratch);
  }

  // Panners of both kinds, some of which stand still.
  panner() {
    const {context} = this, pan = this.one([-1, 0, 1, this.between(-1, 1)]);
    if (this.draw(2)) return new StereoPannerNode(context, {pan});
    const [positionX, positionY, positionZ] = [0, 0, 0].map(() => this.draw(9) - 4);
    return new PannerNode(context, {positionX, positionY, positionZ, distanceModel: this.one(['inverse', 'linear', 'exponential']),
      orientationX: this.draw(2), coneInnerAngle: 90, coneOuterAngle: 270, coneOuterGain: 0.5});
  }

  // Nodes that a script has not, or not as they are.
  refused() {
    const {context} = this;
    return this.one([
      () => new DynamicsCompressorNode(context),
      () => new ConvolverNode(context, {buffer: this.buffer(this.one([1, 2]))}),
      () => new WaveShaperNode(context, {curve: [-this.value(), 0, this.value()], oversample: this.one(['2x', '4x'])}),
    ])();
  }

  node() {
    const {context} = this, plain = [
      () => new ConstantSourceNode(context, {offset: this.value()}),
      () => new AudioBufferSourceNode(context, {buffer: this.buffer(), loop: this.draw(2) === 0,
        loopStart: this.draw(100) / SESSION_RATE, loopEnd: (150 + this.draw(300)) / SESSION_RATE}),
      () => Object.assign(context.createBufferSource(), {buffer: this.buffer()}),
      () => new GainNode(context, {gain: this.value()}),
      () => new GainNode(context, {gain: this.value(), channelCount: 1 + this.draw(4),
        channelInterpretation: this.one(['speakers', 'discrete']),
        channelCountMode: this.one(['max', 'clamped-max', 'explicit'])}),
      () => context.createChannelSplitter(1 + this.draw(4)),
      () => context.createChannelMerger(1 + this.draw(4)),
      () => new WaveShaperNode(context, {curve: [this.value(), this.value(), this.value()]}),
      () => new DelayNode(context, {maxDelayTime: 0.0625, delayTime: (128 + this.draw(500)) / SESSION_RATE}),
    ];
    const more = [() => this.oscillator(), () => this.oscillator(), () => this.biquad(), () => this.filter(),
      () => new AudioBufferSourceNode(context, {buffer: this.buffer(), loop: this.draw(2) === 0, playbackRate: this.between(0.5, 2)}),
      () => new AnalyserNode(context), () => this.panner(), () => this.panner(), () => this.refused()];
    return this.one(this.canLower ? [...plain, ...more] : plain)();
  }

  // Lets a node run from the beginning to the end.
  keepRunning(node) {
    if (!this.canLower) return;
    if (!this.hum) {
      this.hum = new ConstantSourceNode(this.context, {offset: 1 / 64});
      this.silent = new GainNode(this.context, {gain: 0});
      this.silent.connect(this.context.destination);
      this.hum.start();
    }
    if (node.numberOfInputs === 1 && node.numberOfOutputs === 1) this.hum.connect(node);
    if (node.numberOfOutputs === 1) node.connect(this.silent);
  }

  // Connects an earlier node to a later one, or to the destination, so that there are no cycles.
  connect() {
    const to = this.draw(this.nodes.length + 1), from = this.nodes[this.draw(to)] || this.nodes[0];
    const target = this.nodes[to] || this.context.destination;
    if (from === target) return;
    const output = this.draw(from.numberOfOutputs);
    if (target instanceof GainNode && this.draw(4) === 0) from.connect(target.gain, output);
    else if (target instanceof OscillatorNode && this.canLower) from.connect(target.detune, output);
    else from.connect(target, output, this.draw(Math.max(1, target.numberOfInputs)));
  }

  start(source) {
    this.keepRunning(source);
    const when = this.canLower && source instanceof ConstantSourceNode ? this.now / SESSION_RATE : this.seconds(this.now, 600);
    if (source instanceof AudioBufferSourceNode && this.draw(2)) source.start(when, this.seconds(0, 100), this.seconds(0, 3500));
    else source.start(when);
    if (this.draw(2)) source.stop(this.seconds(this.now + 700, 5500));
  }

  // The parameter of a node that is automated, and values that it may have.
  automated(node) {
    if (node instanceof GainNode) return {parameter: node.gain, low: 1 / 16, high: 1};
    if (node instanceof ConstantSourceNode) return {parameter: node.offset, low: 1 / 16, high: 1};
    if (!this.canLower) return null;
    if (node instanceof OscillatorNode)
      return this.one([{parameter: node.frequency, low: 60, high: 2000}, {parameter: node.detune, low: 100, high: 1200}]);
    if (node instanceof AudioBufferSourceNode) return {parameter: node.playbackRate, low: 0.5, high: 2};
    if (node instanceof BiquadFilterNode) return {parameter: node.frequency, low: 60, high: 4000};
    if (node instanceof StereoPannerNode) return {parameter: node.pan, low: 1 / 16, high: 1};
    return null;
  }

  // Events in order of time, from a frame on.
  automate({parameter, low, high}, from) {
    const value = () => this.canLower && this.draw(2) ? this.between(low, high) : low + (high - low) * this.draw(17) / 16;
    let frame = from + this.draw(200);
    parameter.setValueAtTime(value(), frame / SESSION_RATE);
    const plain = [
      time => parameter.setValueAtTime(value(), time),
      time => parameter.linearRampToValueAtTime(value(), time),
      time => parameter.setValueCurveAtTime([value(), value(), value()], time, 128 / SESSION_RATE),
    ];
    const more = [
      time => parameter.exponentialRampToValueAtTime(value(), time),
      time => { parameter.setTargetAtTime(value(), time, this.one([0, 0.001, 0.01])); frame += 200; },
    ];
    const cancels = [
      time => parameter.cancelScheduledValues(time),
      time => parameter.cancelAndHoldAtTime(time),
    ];
    for (let count = this.draw(5); count > 0; count--) {
      frame += 150 + this.draw(200);
      const kinds = [...plain, ...(this.canLower ? more : []), ...(this.cancels ? cancels : [])];
      this.attempt(() => this.one(kinds)((frame + this.fraction()) / SESSION_RATE));
    }
  }

  // Changes the automation of a node: a new start after a cancel, a value, another rate.
  changeAutomation(node) {
    const found = this.automated(node);
    if (!found) return;
    const {parameter, low, high} = found, now = this.now / SESSION_RATE;
    this.one([
      () => { parameter.value = low; },
      () => { parameter.automationRate = this.one(['k-rate', 'a-rate']); },
      () => {
        parameter.cancelScheduledValues(this.cancels ? now : 0);
        parameter.setValueAtTime(low, now);
        parameter.linearRampToValueAtTime(high, this.seconds(this.now + 128, 900));
      },
      () => this.automate(found, this.now),
      () => parameter.setTargetAtTime(high, now / 2, 0.004),
    ])();
  }

  change() {
    const node = this.one(this.nodes), other = this.one(this.nodes);
    const output = this.draw(node.numberOfOutputs), input = this.draw(Math.max(1, other.numberOfInputs));
    const plain = [
      () => this.connect(),
      () => node.disconnect(),
      () => node.disconnect(output),
      () => node.disconnect(other),
      () => node.disconnect(other, output),
      () => node.disconnect(other, output, input),
      () => node.disconnect(other.gain, output),
      () => node.connect(this.context.destination, output),
      () => { if (node instanceof GainNode) node.gain.value = this.value(); },
      () => { if (!this.isFilter(node)) node.channelCountMode = this.one(['max', 'clamped-max', 'explicit']); },
    ];
    const more = [
      () => this.changeAutomation(node),
      () => this.changeAutomation(other),
      () => { if (node instanceof OscillatorNode) node.type = this.one(['sine', 'square', 'triangle']); },
      () => { if (node instanceof OscillatorNode) node.setPeriodicWave(this.wave()); },
      () => this.add(),
    ];
    this.one(this.canLower ? [...plain, ...more, ...more] : plain)();
  }

  // A node that is made later.
  add() {
    const node = this.node();
    this.nodes.push(node);
    if (node instanceof AudioScheduledSourceNode) this.start(node);
    else this.keepRunning(node);
    node.connect(this.context.destination, this.draw(node.numberOfOutputs));
  }

  isFilter(node) { return node instanceof BiquadFilterNode || node instanceof IIRFilterNode; }

  // What the browser refuses is part of a session, too.
  attempt(action) {
    try {
      action();
    } catch (fault) {
      // the recorder has heard of it
    }
  }

  begin() {
    for (let count = 4 + this.draw(10); count > 0; count--) this.nodes.push(this.node());
    for (let count = 8 + this.draw(16); count > 0; count--) this.attempt(() => this.connect());
    for (const node of this.nodes) {
      if (node instanceof AudioScheduledSourceNode) this.start(node);
      else this.keepRunning(node);
      if (this.draw(3) === 0) node.connect(this.context.destination);
      const found = this.automated(node);
      if (found && this.draw(2)) this.automate(found, 0);
    }
  }

  changeAt(frame) {
    this.now = frame;
    for (let count = 3; count > 0; count--) this.attempt(() => this.change());
  }

  // Gives what the browser renders.
  async render() {
    this.begin();
    for (const frame of SUSPENSIONS)
      this.context.suspend(frame / SESSION_RATE).then(() => {
        this.changeAt(frame);
        this.context.resume();
      });
    return this.context.startRendering();
  }
}

// Makes a real-time piece that changes at timers of several kinds.
function beginRealTimeSession(seed, {canLower, quantum}) {
  const context = new AudioContext({sampleRate: SESSION_RATE, renderSizeHint: quantum});
  const session = new RandomSession(seed, {canLower, context});
  session.begin();
  const change = () => session.changeAt(Math.round(context.currentTime * SESSION_RATE));
  setTimeout(change, 31.25);
  setTimeout(() => requestAnimationFrame(change), 60);
  const repeated = setInterval(() => {
    change();
    if (session.draw(2)) clearInterval(repeated);
  }, 40 + session.draw(20));
}

// Records a session whose quanta have so many frames, and gives the number of its context.
export async function recordRandomSession(seed, canLower, isRealTime, quantum) {
  const number = globalThis.waplayRecorder.progress().contexts + 1;
  if (isRealTime) {
    beginRealTimeSession(seed, {canLower, quantum});
    await globalThis.waplayRecorder.go();
  } else await new RandomSession(seed, {canLower, quantum}).render();
  return number;
}

// Plays the script of a context. Gives the floats of each channel as base64.
export async function playRecorded(number) {
  return textsOf(await play(JSON.parse(await globalThis.waplayRecorder.text(number)), new Map()));
}
