// Render quanta: how many frames a context renders at a time.

import {native} from './native.js';

const DEFAULT = 128;
const SIZES = [32, 64, DEFAULT, 256, 512, 1024]; // those that waplay renders

export const isQuantum = frames => SIZES.includes(frames);

// The size that a context of the browser has, which tells what came of a page's hint. One that shows none has that by default.
export const quantumOf = ({renderQuantumSize}) => renderQuantumSize || DEFAULT;

// What a script says of the quantum: nothing where it is that by default, which also stands for one that waplay has not.
export const quantumMember = ({quantum}) => isQuantum(quantum) && quantum !== DEFAULT ? {renderQuantum: quantum} : {};

// A context of the browser that renders as many frames at a time as the page's, where the browser follows the hint.
export function contextLike({rate, quantum}, channels, length) {
  if (quantum === DEFAULT) return new native.OfflineAudioContext(channels, length, rate);
  return new native.OfflineAudioContext({numberOfChannels: channels, length, sampleRate: rate, renderSizeHint: quantum});
}
