// Render quanta: what a script says of them, and how the browser is asked for them.

import assert from 'node:assert/strict';
import {test} from 'node:test';
import {loseOfContext} from '../limits.js';
import {native} from '../native.js';
import {contextLike, isQuantum, quantumMember, quantumOf} from '../quanta.js';
import {Recording} from '../recording.js';
import {tapInPage} from '../taps.js';

const SIZES = [32, 64, 128, 256, 512, 1024], OTHERS = [0, 1, 31, 33, 96, 100, 127, 129, 480, 1023, 1025, 2048];

const recordingOf = quantum => new Recording({channels: 1, length: 1, rate: 48000, quantum});

test('six sizes are those of waplay', () => {
  for (const size of SIZES) assert.equal(isQuantum(size), true);
  for (const size of OTHERS) assert.equal(isQuantum(size), false);
});

test('the size is the one that the browser shows, and not the one that a page gave', () => {
  for (const size of [...SIZES, 1, 100, 2048]) assert.equal(quantumOf({renderQuantumSize: size}), size);
  assert.equal(quantumOf({}), 128);
  assert.equal(quantumOf({renderSizeHint: 256}), 128);
  assert.equal(quantumOf({renderSizeHint: 256, renderQuantumSize: 64}), 64);
});

test('a worklet is not listened to where a block is no whole number of quanta', () => {
  for (const quantum of [33, 100, 480, 8192]) {
    const entry = {recording: {quantum}, node: {numberOfOutputs: 1}, options: {}};
    tapInPage(entry);
    assert.equal('tap' in entry, false);
  }
});

test('a script tells a size that is not the one by default', () => {
  for (const size of SIZES) assert.deepEqual(quantumMember(recordingOf(size)), size === 128 ? {} : {renderQuantum: size});
  for (const size of OTHERS) assert.deepEqual(quantumMember(recordingOf(size)), {});
});

test('a context of another size is lost', () => {
  for (const size of [...SIZES, ...OTHERS]) {
    const recording = recordingOf(size);
    assert.equal(loseOfContext(recording), SIZES.includes(size));
    assert.deepEqual(recording.losses.map(({kind}) => kind), SIZES.includes(size) ? [] : ['context-limit']);
  }
});

test('a context that renders for the recorder has the size of the page', () => {
  const before = native.OfflineAudioContext;
  native.OfflineAudioContext = class {
    constructor(...words) { this.words = words; }
  };
  try {
    assert.deepEqual(contextLike(recordingOf(128), 2, 300).words, [2, 300, 48000]);
    assert.deepEqual(contextLike(recordingOf(256), 2, 300).words,
      [{numberOfChannels: 2, length: 300, sampleRate: 48000, renderSizeHint: 256}]);
  } finally {
    native.OfflineAudioContext = before;
  }
});
