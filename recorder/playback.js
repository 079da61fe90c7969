// Playback: performs a script with the browser's own Web Audio.
//
// The tests see with it that a recording says what its page did, and the recorder how loud it is inside filters. It
// is no stand-in for waplay: values are floating-point numbers again, and what differs between browsers and waplay's
// profile differs here too. A call that waplay refuses is left out.

const UNIT = 2 ** 24;
const valueOf = whole => whole / UNIT;

// A context of a script's shape.
function contextOf({channels, length, rate, renderQuantum}) {
  if (renderQuantum === undefined) return new OfflineAudioContext(channels, length, rate);
  return new OfflineAudioContext({numberOfChannels: channels, length, sampleRate: rate, renderSizeHint: renderQuantum});
}

export class Player {
  // `assets` has an AudioBuffer for each path.
  constructor(script, assets, context) {
    this.context = context || contextOf(script.context);
    this.assets = assets;
    this.named = new Map([['destination', this.context.destination]]);
    this.heads = new Map(); // nodes whose inputs are those of another one
    this.rendering = null;
  }

  // A time that is the frame, and not by a rounding behind it, where the browser would take the next one.
  secondsOf(frame) {
    const rate = this.context.sampleRate, seconds = frame / rate;
    return seconds * rate > frame ? seconds * (1 - 2 ** -52) : seconds;
  }

  bind(call, object) {
    this.named.set(call.as, object);
  }

  // The node that an input belongs to.
  headOf(name) {
    return this.heads.get(name) || this.named.get(name);
  }

  createFilter(call) {
    if (call.feedforward) this.bind(call, this.context.createIIRFilter(call.feedforward.map(valueOf), call.feedback.map(valueOf)));
  }

  createBuffer(call) {
    this.bind(call, new AudioBuffer({numberOfChannels: call.channels, length: call.length, sampleRate: call.rate}));
  }

  // Lets something be done at the quantum of a frame. It has to resume.
  at(frame, action) {
    this.context.suspend(this.secondsOf(frame)).then(action, () => {});
  }

  // Performs a list. A call that fails changes nothing, as in waplay.
  perform(calls) {
    for (const call of calls) {
      try {
        if (PLAYED[call.op]) PLAYED[call.op](this, call);
      } catch (fault) {
        // waplay refuses the call too, or the recorder told of it
      }
    }
  }
}

const parameterOf = (player, {node, to, param}) => player.named.get(node || to)[param];

const PLAYED = {
  createConstantSource(player, call) {
    player.bind(call, new ConstantSourceNode(player.context, {offset: valueOf(call.offset ?? UNIT)}));
  },
  createGain(player, call) {
    player.bind(call, new GainNode(player.context, {gain: valueOf(call.gain ?? UNIT)}));
  },
  createDelay(player, call) {
    const maxDelayTime = valueOf(call.maxDelayTime ?? UNIT), delayTime = valueOf(call.delayTime ?? 0);
    player.bind(call, new DelayNode(player.context, {maxDelayTime, delayTime}));
  },
  createChannelSplitter(player, call) {
    player.bind(call, player.context.createChannelSplitter(call.numberOfOutputs ?? 6));
  },
  createChannelMerger(player, call) {
    player.bind(call, player.context.createChannelMerger(call.numberOfInputs ?? 6));
  },
  createWaveShaper(player, call) {
    const curve = call.curve ? call.curve.map(valueOf) : undefined;
    player.bind(call, new WaveShaperNode(player.context, {curve, oversample: call.oversample ?? 'none'}));
  },
  createIIRFilter(player, call) { player.createFilter(call); },
  createBiquadFilter(player, call) { player.createFilter(call); },
  createConvolver(player, call) {
    if (call.disableNormalization) // else waplay refuses it
      player.bind(call, new ConvolverNode(player.context, {
        buffer: call.buffer ? player.named.get(call.buffer) : null, disableNormalization: true}));
  },
  createBufferSource(player, call) {
    player.bind(call, new AudioBufferSourceNode(player.context, {
      buffer: call.buffer ? player.named.get(call.buffer) : null, loop: call.loop ?? false,
      loopStart: player.secondsOf(call.loopStart ?? 0), loopEnd: player.secondsOf(call.loopEnd ?? 0),
      playbackRate: valueOf(call.playbackRate ?? UNIT)}));
  },
  createBuffer(player, call) { player.createBuffer(call); },
  decodeAudioData(player, call) {
    const asset = player.assets.get(call.path); // a copy, as the script may write into it
    const copy = new AudioBuffer({numberOfChannels: asset.numberOfChannels, length: asset.length, sampleRate: asset.sampleRate});
    for (let channel = 0; channel < asset.numberOfChannels; channel++) copy.copyToChannel(asset.getChannelData(channel), channel);
    player.bind(call, copy);
  },
  copyToChannel(player, call) {
    player.named.get(call.buffer).copyToChannel(Float32Array.from(call.samples, valueOf), call.channel, call.at ?? 0);
  },
  connect(player, call) {
    player.named.get(call.from).connect(player.headOf(call.to), call.output ?? 0, call.input ?? 0);
  },
  connectParam(player, call) {
    player.named.get(call.from).connect(parameterOf(player, call), call.output ?? 0);
  },
  disconnect(player, call) {
    const node = player.named.get(call.from), to = player.headOf(call.to);
    node.disconnect(...[to, call.output, call.input].filter(word => word !== undefined && word !== null));
  },
  disconnectParam(player, call) {
    const from = player.named.get(call.from);
    from.disconnect(...[parameterOf(player, call), call.output].filter(word => word !== undefined && word !== null));
  },
  setChannelCount(player, call) { player.headOf(call.node).channelCount = call.value; },
  setChannelCountMode(player, call) { player.headOf(call.node).channelCountMode = call.value; },
  setChannelInterpretation(player, call) { player.headOf(call.node).channelInterpretation = call.value; },
  setCurve(player, call) { player.named.get(call.node).curve = call.curve && Float32Array.from(call.curve, valueOf); },
  setOversample(player, call) { player.named.get(call.node).oversample = call.value; },
  setBuffer(player, call) { player.named.get(call.node).buffer = call.buffer && player.named.get(call.buffer); },
  setLoop(player, call) { player.named.get(call.node).loop = call.value; },
  setLoopStart(player, call) { player.named.get(call.node).loopStart = player.secondsOf(call.value); },
  setLoopEnd(player, call) { player.named.get(call.node).loopEnd = player.secondsOf(call.value); },
  start(player, call) {
    const node = player.named.get(call.node), times = [call.when ?? 0];
    if (node instanceof AudioBufferSourceNode) times.push(call.offset ?? 0, ...(isFinite(call.duration ?? NaN) ? [call.duration] : []));
    node.start(...times.map(frame => player.secondsOf(frame)));
  },
  stop(player, call) { player.named.get(call.node).stop(player.secondsOf(call.when ?? 0)); },
  setValue(player, call) { parameterOf(player, call).value = valueOf(call.value); },
  setValueAtTime(player, call) {
    parameterOf(player, call).setValueAtTime(valueOf(call.value), player.secondsOf(call.time));
  },
  linearRampToValueAtTime(player, call) {
    parameterOf(player, call).linearRampToValueAtTime(valueOf(call.value), player.secondsOf(call.time));
  },
  setValueCurveAtTime(player, call) {
    // The end is a touch too early, as the browser may take curves that touch each other for overlapping ones.
    const begin = player.secondsOf(call.time), end = player.secondsOf(call.time + call.duration);
    parameterOf(player, call).setValueCurveAtTime(Float32Array.from(call.values, valueOf), begin, end - begin - 1e-13);
  },
  cancelScheduledValues(player, call) { parameterOf(player, call).cancelScheduledValues(player.secondsOf(call.time)); },
  cancelAndHoldAtTime(player, call) { parameterOf(player, call).cancelAndHoldAtTime(player.secondsOf(call.time)); },
  setAutomationRate(player, call) { parameterOf(player, call).automationRate = call.value; },
  suspend(player, call) { player.at(call.time, () => player.perform(call.then ?? [])); },
  resume(player) { player.context.resume().catch(() => {}); },
  startRendering(player) { player.rendering = player.rendering || player.context.startRendering(); },
};

// What the browser renders for a script. `assets` has an AudioBuffer for each path.
export function play(script, assets) {
  const player = new Player(script, assets);
  player.perform(script.calls);
  return player.rendering;
}

// The floats of each channel as base64.
export function textsOf(rendered) {
  return Array.from({length: rendered.numberOfChannels}, (_, channel) => {
    const bytes = new Uint8Array(rendered.getChannelData(channel).slice().buffer);
    let text = '';
    for (let place = 0; place < bytes.length; place += 32768) text += String.fromCharCode(...bytes.subarray(place, place + 32768));
    return btoa(text);
  });
}

// Plays the script at a path. Gives the floats of each channel as base64.
export async function playScript(path) {
  const script = await (await fetch(path)).json();
  const every = calls => calls.flatMap(call => [call, ...every(call.then ?? [])]);
  const assets = new Map();
  for (const call of every(script.calls))
    if (call.op === 'decodeAudioData' && !assets.has(call.path)) {
      const bytes = await (await fetch(call.path)).arrayBuffer();
      const reader = new OfflineAudioContext(1, 1, script.context.rate);
      assets.set(call.path, await reader.decodeAudioData(bytes));
    }
  return textsOf(await play(script, assets));
}
