// Taps: what comes out of nodes whose work no copy can do, as worklets, is kept while the page renders.
//
// A script processor of ours hears all outputs of such a node. Rendering waits for it, so nothing is missed but what
// comes after its last whole block, which analysers still have when rendering is over.

import {native} from './native.js';

const BLOCK = 4096; // frames
const USUAL_WIDTH = 2; // channels of an output that does not say how many it has
const MOST_CHANNELS = 32;

const TAPPED = new Set(['AudioWorkletNode', 'ScriptProcessorNode']);

export const isTapped = ({kind}) => TAPPED.has(kind);

// How many channels of each output are kept.
function widthsOf({node, options}) {
  const told = options.outputChannelCount || (options.outputs ? [options.outputs] : []);
  return Array.from({length: node.numberOfOutputs}, (_, output) => told[output] || USUAL_WIDTH);
}

// Lets a node's outputs be kept from now on: entry.tap.
export function tapInPage(entry) {
  const {recording, node} = entry, {context} = recording, widths = widthsOf(entry);
  const total = widths.reduce((sum, width) => sum + width, 0);
  if (total === 0 || total > MOST_CHANNELS || BLOCK % recording.quantum) return; // a block has to be whole quanta
  const merger = new native.ChannelMergerNode(context, {numberOfInputs: total});
  const analysers = [];
  widths.forEach((width, output) => {
    const even = new native.GainNode(context, {channelCount: width, channelCountMode: 'explicit'});
    const splitter = new native.ChannelSplitterNode(context, {numberOfOutputs: width});
    native.connect.call(node, even, output);
    native.connect.call(even, splitter);
    for (let channel = 0; channel < width; channel++) {
      const analyser = new native.AnalyserNode(context, {fftSize: BLOCK});
      native.connect.call(splitter, analyser, channel); // it stands aside: what passes it misses its first quantum
      native.connect.call(splitter, merger, channel, analysers.push(analyser) - 1);
    }
  });
  const listener = native.createScriptProcessor.call(context, BLOCK, total, 1);
  const blocks = analysers.map(() => []);
  listener.onaudioprocess = ({inputBuffer}) => blocks.forEach((kept, channel) =>
    kept.push(native.getChannelData.call(inputBuffer, channel).slice()));
  native.connect.call(merger, listener);
  native.connect.call(listener, context.destination); // it is silent
  entry.tap = {widths, blocks, analysers, listener};
}

// What one channel had, from the node's birth to the end.
function channelOf({blocks, analysers}, channel, length, quantum) {
  const samples = new Float32Array(length), rest = length - blocks[channel].length * BLOCK;
  blocks[channel].forEach((block, place) => samples.set(block.subarray(0, length - place * BLOCK), place * BLOCK));
  const last = new Float32Array(BLOCK);
  analysers[channel].getFloatTimeDomainData(last);
  const rendered = Math.ceil(length / quantum) * quantum - blocks[channel].length * BLOCK;
  if (rest > 0) samples.set(last.subarray(BLOCK - rendered, BLOCK - rendered + rest), length - rest);
  return samples;
}

// What comes out of a tapped node, once rendering is over: of each output its channels.
export function tappedSamples({recording, bornAt, tap}) {
  let first = 0;
  return tap.widths.map(width => {
    const length = recording.length - bornAt;
    const channels = Array.from({length: width}, (_, place) => channelOf(tap, first + place, length, recording.quantum));
    first += width;
    return channels;
  });
}
