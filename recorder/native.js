// Native: what the browser gave before anything was wrapped.

const prototypeOf = name => globalThis[name] ? globalThis[name].prototype : {};
const getterOf = (name, attribute) => (Object.getOwnPropertyDescriptor(prototypeOf(name), attribute) || {}).get;

export const native = {
  setTimeout: globalThis.setTimeout.bind(globalThis),
  clearTimeout: globalThis.clearTimeout.bind(globalThis),
  then: Promise.prototype.then,
  getChannelData: prototypeOf('AudioBuffer').getChannelData,
  connect: prototypeOf('AudioNode').connect,
  disconnect: prototypeOf('AudioNode').disconnect,
  createScriptProcessor: prototypeOf('BaseAudioContext').createScriptProcessor,
  value: getterOf('AudioParam', 'value'),
  currentTime: getterOf('BaseAudioContext', 'currentTime'),
  OfflineAudioContext: globalThis.OfflineAudioContext,
  AudioBuffer: globalThis.AudioBuffer,
};

for (const kind of ['AnalyserNode', 'AudioBufferSourceNode', 'BiquadFilterNode', 'ChannelMergerNode', 'ChannelSplitterNode',
  'ConstantSourceNode', 'ConvolverNode', 'DelayNode', 'DynamicsCompressorNode', 'GainNode', 'IIRFilterNode', 'OscillatorNode',
  'PannerNode', 'StereoPannerNode', 'WaveShaperNode']) native[kind] = globalThis[kind];
