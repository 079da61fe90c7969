// Nodes: their creation by factories and constructors, and their attributes.

import {Timeline} from './automation.js';
import {bufferName} from './buffers.js';
import {keepEndingBack} from './endings.js';
import {putCoefficients} from './filters.js';
import {journal, note} from './journal.js';
import {responseSet, wrapLeftOut} from './left_out.js';
import {native} from './native.js';
import {creationOf, featureOf, wordsOf} from './operations.js';
import {entryOfNode, entryOfParameter, recordingOfContext} from './recording.js';
import {settings} from './settings.js';
import {isTapped, tapInPage} from './taps.js';
import {ONE, fixedList, fixedSeconds, fixedValue, frameOf, isGiven, nearestFixed} from './values.js';
import {takenNumbers, wrapAttribute, wrapConstructor, wrapMethod} from './wrapping.js';

// Of each interface what its names in a script begin with.
const NAME_PREFIXES = {
  ConstantSourceNode: 'constant', GainNode: 'gain', DelayNode: 'delay', ChannelSplitterNode: 'splitter',
  ChannelMergerNode: 'merger', WaveShaperNode: 'shaper', IIRFilterNode: 'filter', AudioBufferSourceNode: 'source',
  OscillatorNode: 'oscillator', BiquadFilterNode: 'biquad', ConvolverNode: 'convolver', StereoPannerNode: 'panner',
  PannerNode: 'panner', DynamicsCompressorNode: 'compressor', AnalyserNode: 'analyser',
  MediaElementAudioSourceNode: 'media', MediaStreamAudioSourceNode: 'media', MediaStreamTrackAudioSourceNode: 'media',
  MediaStreamAudioDestinationNode: 'media', ScriptProcessorNode: 'processor', AudioWorkletNode: 'worklet',
};

// Of each interface its operation, that prefix, and the feature word where waplay leaves it out.
export const NODE_KINDS = Object.fromEntries(Object.entries(NAME_PREFIXES).map(([kind, prefix]) => {
  const op = creationOf(kind);
  return [kind, {op, prefix, feature: featureOf(op)}];
}));

const MODES = wordsOf('setChannelCountMode');
const INTERPRETATIONS = wordsOf('setChannelInterpretation');
const OVERSAMPLES = wordsOf('setOversample');

// What the options of each kind put into the call of its creation.
const CREATION = {
  ConstantSourceNode(recording, call, options) {
    if (isGiven(options.offset)) call.offset = fixedValue(recording, +options.offset, call);
  },
  GainNode(recording, call, options) {
    if (isGiven(options.gain)) call.gain = fixedValue(recording, +options.gain, call);
  },
  DelayNode(recording, call, options) {
    if (isGiven(options.maxDelayTime)) call.maxDelayTime = nearestFixed(+options.maxDelayTime).whole;
    if (isGiven(options.delayTime)) call.delayTime = fixedSeconds(recording, +options.delayTime, call);
    if (call.maxDelayTime > 16 * ONE) recording.lose('long-delay', call);
  },
  ChannelSplitterNode(recording, call, options) {
    if (isGiven(options.numberOfOutputs)) call.numberOfOutputs = options.numberOfOutputs >>> 0;
  },
  ChannelMergerNode(recording, call, options) {
    if (isGiven(options.numberOfInputs)) call.numberOfInputs = options.numberOfInputs >>> 0;
  },
  WaveShaperNode(recording, call, options) {
    if (isGiven(options.curve)) call.curve = fixedList(recording, Float32Array.from(options.curve), call);
    if (OVERSAMPLES.includes(String(options.oversample))) call.oversample = String(options.oversample);
    if (call.oversample && call.oversample !== 'none') recording.lose('oversample', call);
  },
  IIRFilterNode(recording, call, options) {
    const section = putCoefficients(recording, call, options.feedforward || [], options.feedback || []);
    recording.rows.push({sections: [section], lead: 1, trailing: 1});
  },
  ConvolverNode(recording, call, options) {
    if (!isGiven(options.buffer)) call.disableNormalization = true; // it is silent, so nothing is scaled
  },
  AudioBufferSourceNode(recording, call, options) {
    if (isGiven(options.loop)) call.loop = Boolean(options.loop);
    if (isGiven(options.loopStart)) call.loopStart = frameOf(recording, +options.loopStart, call, 'nearest');
    if (isGiven(options.loopEnd)) call.loopEnd = frameOf(recording, +options.loopEnd, call, 'nearest');
    if (isGiven(options.playbackRate)) putPlaybackRate(recording, call, +options.playbackRate);
    if (isGiven(options.detune) && +options.detune !== 0) recording.lose('detune', call);
  },
};

export function putPlaybackRate(recording, call, rate) {
  call.playbackRate = nearestFixed(Math.fround(rate)).whole;
  if (!(rate >= 1 && Number.isInteger(rate))) recording.lose('playback-rate', call);
}

// The calls that create a node. The creation is `creation`; what must come before and after stands around it.
function creationCalls(recording, kind, options) {
  const {op, prefix, feature} = NODE_KINDS[kind];
  const creation = {op, as: recording.newName(prefix)};
  const calls = [creation];
  if (kind === 'AudioBufferSourceNode' && isGiven(options.buffer)) {
    const before = [];
    creation.buffer = bufferName(recording, options.buffer, before);
    if (options.buffer.sampleRate !== recording.rate) recording.lose('resampling', creation);
    calls.unshift(...before);
  }
  if (CREATION[kind]) CREATION[kind](recording, creation, options);
  if (feature) recording.lose(feature, creation);
  const {channelCount, channelCountMode, channelInterpretation} = options;
  const set = (attribute, value) => calls.push({op: attribute, node: creation.as, value});
  if (isGiven(channelCount)) set('setChannelCount', channelCount >>> 0);
  if (MODES.includes(channelCountMode)) set('setChannelCountMode', channelCountMode);
  if (INTERPRETATIONS.includes(channelInterpretation)) set('setChannelInterpretation', channelInterpretation);
  return {calls, creation};
}

// Every AudioParam of a node or of the listener, by its name.
function parametersOf(object) {
  const found = new Map();
  let prototype = Object.getPrototypeOf(object);
  while (prototype && prototype !== Object.prototype) {
    for (const name of Object.getOwnPropertyNames(prototype)) {
      const getter = Object.getOwnPropertyDescriptor(prototype, name).get;
      const value = getter && name !== 'context' ? getter.call(object) : null;
      if (value instanceof AudioParam) found.set(name, value);
    }
    prototype = Object.getPrototypeOf(prototype);
  }
  const isWorklet = globalThis.AudioWorkletNode && object instanceof globalThis.AudioWorkletNode; // in secure contexts alone
  if (isWorklet) object.parameters.forEach((parameter, name) => found.set(name, parameter));
  return found;
}

export function registerParameters(entry, object) {
  for (const [name, parameter] of parametersOf(object)) {
    const timeline = new Timeline(native.value.call(parameter));
    entryOfParameter.set(parameter, {recording: entry.recording, node: entry, name, events: 0, timeline});
  }
}

function registerNode(recording, node, entry) {
  Object.assign(entry, {recording, node, list: recording.current, bornAt: recording.now, startCall: null, journal: [],
    isBakeable: true, isSteady: true});
  entryOfNode.set(node, entry);
  recording.entries.set(entry.name, entry);
  registerParameters(entry, node);
  note(entry, {isMade: true});
  if (settings.lower && isTapped(entry)) tapInPage(entry);
  if (recording.isRealTime && node instanceof AudioScheduledSourceNode) keepEndingBack(entry);
  if (entry.kind === 'OscillatorNode' || entry.kind === 'AudioBufferSourceNode') recording.sources.push(entry);
  if (entry.kind === 'BiquadFilterNode' || entry.kind === 'IIRFilterNode') recording.filters.push(entry);
  if (entry.kind === 'AnalyserNode') recording.analysers.push(entry);
  if (entry.kind === 'ConvolverNode') recording.convolvers.push(Object.assign(entry, {responses: []}));
  if (entry.kind === 'StereoPannerNode' || entry.kind === 'PannerNode') recording.panners.push(entry);
}

const isSameCurve = (one, other) => one.length === other.length && one.every((point, place) => point === other[place]);

// Whether a curve can do without a call of its own: the same one is there, or no frame lies between it and the first.
function isCurveSettled(entry, call) {
  const {recording, first, isTaken} = entry;
  if (!first || !call.curve) return false;
  const isSameTime = entry.curveList === recording.current && (recording.phase !== 'rendering' || recording.sameTurn);
  if (!isTaken && isSameCurve(first.curve, call.curve)) recording.lose('call-left-out');
  else if (!isTaken && isSameTime) {
    first.curve = call.curve;
    recording.lose('reordered', first);
  } else return false;
  return true;
}

// The browser took a curve. waplay takes one for each shaper. To browsers one of no point is none.
function curveTaken(entry, call) {
  if (call.curve && !call.curve.length) call.curve = null;
  entry.isTaken = !call.curve && Boolean(entry.first); // the curve was taken away
  if (!call.curve) return;
  if (entry.first) entry.recording.lose('second-curve', call);
  else Object.assign(entry, {first: call, curveList: entry.recording.current});
}

// A page created a node, or was refused one.
function nodeCreated(kind, context, options, node, exception) {
  const recording = recordingOfContext.get(context);
  if (!recording || recording.leavesOut(exception)) return;
  const {calls, creation} = creationCalls(recording, kind, options);
  if (NODE_KINDS[kind].feature) recording.refusedNames.add(creation.as);
  recording.emit(calls, exception);
  if (!node) return;
  registerNode(recording, node, {name: creation.as, kind, creation, options: keptOptions(kind, options)});
  const entry = entryOfNode.get(node);
  if (kind === 'AudioBufferSourceNode' && isGiven(options.buffer))
    Object.assign(entry, {buffer: options.buffer, bufferCall: creation, bufferList: recording.current});
  if (kind === 'IIRFilterNode') entry.coefficients = recording.rows[recording.rows.length - 1].sections[0];
  if (kind === 'WaveShaperNode') curveTaken(entry, creation);
  if (kind === 'ConvolverNode' && isGiven(options.buffer)) responseSet(entry, options.buffer);
}

const CHANNELS = ['channelCount', 'channelCountMode', 'channelInterpretation'];

// The members of the options of each kind that the recorder reads, in the order in which browsers ask for them.
const MEMBERS = {
  ConstantSourceNode: ['offset'], GainNode: [...CHANNELS, 'gain'], DelayNode: [...CHANNELS, 'delayTime', 'maxDelayTime'],
  ChannelSplitterNode: [...CHANNELS, 'numberOfOutputs'], ChannelMergerNode: [...CHANNELS, 'numberOfInputs'],
  WaveShaperNode: [...CHANNELS, 'curve', 'oversample'], IIRFilterNode: [...CHANNELS, 'feedback', 'feedforward'],
  AudioBufferSourceNode: ['buffer', 'detune', 'loop', 'loopEnd', 'loopStart', 'playbackRate'],
  OscillatorNode: [...CHANNELS, 'detune', 'frequency', 'periodicWave', 'type'],
  BiquadFilterNode: [...CHANNELS, 'Q', 'detune', 'frequency', 'gain', 'type'],
  AnalyserNode: [...CHANNELS, 'fftSize', 'maxDecibels', 'minDecibels', 'smoothingTimeConstant'],
  ConvolverNode: [...CHANNELS, 'buffer', 'disableNormalization'],
  DynamicsCompressorNode: [...CHANNELS, 'attack', 'knee', 'ratio', 'release', 'threshold'],
  StereoPannerNode: [...CHANNELS, 'pan'],
  PannerNode: [...CHANNELS, 'coneInnerAngle', 'coneOuterAngle', 'coneOuterGain', 'distanceModel', 'maxDistance', 'orientationX',
    'orientationY', 'orientationZ', 'panningModel', 'positionX', 'positionY', 'positionZ', 'refDistance', 'rolloffFactor'],
};
const LISTS = ['feedforward', 'feedback', 'curve'];

// The arguments of a constructor. Each member of its options is asked for once, and lists are gone through once.
function takenOptions(kind, [context, options, ...others]) {
  const isObject = options !== null && ['object', 'function'].includes(typeof options);
  if (!MEMBERS[kind] || !isObject) return [context, options, ...others];
  const taken = {};
  for (const name of MEMBERS[kind]) {
    const value = options[name];
    if (value !== undefined) taken[name] = LISTS.includes(name) ? takenNumbers(value) : value;
  }
  return [context, taken, ...others];
}

// What a copy of a node needs of the options. The content of a buffer is in the journal.
const OF_PROCESSORS = ['inputs', 'outputs', 'outputChannelCount'];

const keptOptions = (kind, options) => Object.fromEntries((MEMBERS[kind] || OF_PROCESSORS)
  .filter(name => name !== 'buffer' && options[name] !== undefined).map(name => [name, options[name]]));

// The arguments of a factory as the options of its constructor.
const FACTORY_OPTIONS = {
  createDelay: ([maxDelayTime]) => ({maxDelayTime}),
  createChannelSplitter: ([numberOfOutputs]) => ({numberOfOutputs}),
  createChannelMerger: ([numberOfInputs]) => ({numberOfInputs}),
  createIIRFilter: ([feedforward, feedback]) => ({feedforward, feedback}),
  createScriptProcessor: ([, inputs = 2, outputs = 2]) => ({inputs: inputs >>> 0, outputs: outputs >>> 0}),
};

// What a worklet says of its outputs, where no code of the page is run by asking.
function optionsOfWorklet([, , options]) {
  const found = Object.getOwnPropertyDescriptor(Object(options), 'outputChannelCount');
  return found && found.value ? {outputChannelCount: Array.from(found.value)} : {};
}

// Attributes that become one call each: of a prototype, a name, an operation, and the value as the script has it.
function wrapAttributeAsCall(prototype, name, op, valueOf) {
  wrapAttribute(prototype, name, (node, value, exception) => {
    const entry = entryOfNode.get(node);
    if (!entry || entry.recording.leavesOut(exception)) return;
    const written = valueOf(value);
    if (written === undefined) return; // a word that is none of the enumeration: the browser ignores it
    if (!exception) journal(entry, copy => { copy[name] = value; });
    const call = {op, node: entry.name, value: written};
    entry.recording.emit([call], exception);
    if (op === 'setOversample' && written !== 'none') entry.recording.lose('oversample', call);
  });
}

export function wrapNodes() {
  wrapLeftOut();
  for (const [kind, {op}] of Object.entries(NODE_KINDS)) {
    const optionsOf = kind === 'AudioWorkletNode' ? optionsOfWorklet : ([, options]) => Object(options);
    wrapConstructor(kind, (args, node, exception) => nodeCreated(kind, args[0], optionsOf(args), node, exception),
      args => args.length > 1 ? takenOptions(kind, args) : args);
    wrapMethod(BaseAudioContext.prototype, op, (context, args, node, exception) =>
      nodeCreated(kind, context, FACTORY_OPTIONS[op] ? FACTORY_OPTIONS[op](args) : {}, node, exception), args => op === 'createIIRFilter' ? args.map(takenNumbers) : args);
  }
  const waveCreated = (context, exception) => {
    const recording = recordingOfContext.get(context);
    if (!recording || recording.leavesOut(exception)) return;
    const call = {op: 'createPeriodicWave', as: recording.newName('wave')};
    recording.emit([call], exception);
    recording.lose('periodic-wave', call);
  };
  wrapConstructor('PeriodicWave', ([context], wave, exception) => waveCreated(context, exception));
  wrapMethod(BaseAudioContext.prototype, 'createPeriodicWave', (context, args, wave, exception) => waveCreated(context, exception));

  const wordOf = words => value => words.includes(String(value)) ? String(value) : undefined;
  wrapAttributeAsCall(AudioNode.prototype, 'channelCount', 'setChannelCount', value => value >>> 0);
  wrapAttributeAsCall(AudioNode.prototype, 'channelCountMode', 'setChannelCountMode', wordOf(MODES));
  wrapAttributeAsCall(AudioNode.prototype, 'channelInterpretation', 'setChannelInterpretation', wordOf(INTERPRETATIONS));
  wrapAttributeAsCall(WaveShaperNode.prototype, 'oversample', 'setOversample', wordOf(OVERSAMPLES));
  wrapAttribute(WaveShaperNode.prototype, 'curve', (node, curve, exception) => {
    const entry = entryOfNode.get(node);
    if (!entry || entry.recording.leavesOut(exception)) return;
    const call = {op: 'setCurve', node: entry.name, curve: null};
    const points = isGiven(curve) ? Float32Array.from(curve) : null;
    if (points) call.curve = fixedList(entry.recording, points, call);
    if (!exception) journal(entry, copy => { copy.curve = points; });
    if (!exception && isCurveSettled(entry, call)) return;
    entry.recording.emit([call], exception);
    if (!exception) curveTaken(entry, call);
  });
}
