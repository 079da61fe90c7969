// An engine of classes, as a module.

class Voice {
  constructor(context, out) { Object.assign(this, {context, out}); }

  play(frequency, time) {
    const tone = new OscillatorNode(this.context, {type: 'sawtooth', frequency}), filter = new BiquadFilterNode(this.context, {frequency: 1200, Q: 3});
    const gain = new GainNode(this.context, {gain: 0});
    gain.gain.setValueCurveAtTime(new Float32Array([0, 0.4, 0.25, 0.2, 0]), time, 0.5);
    tone.connect(filter).connect(gain).connect(this.out);
    tone.start(time);
    tone.stop(time + 0.5);
  }
}

export class Engine extends OfflineAudioContext {
  constructor(seconds) {
    super({numberOfChannels: 2, length: 48000 * seconds, sampleRate: 48000});
    this.voice = new Voice(this, this.destination);
  }
}
