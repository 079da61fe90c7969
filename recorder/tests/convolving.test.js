// What a convolver makes of its response, worked out by hand from the formulas of the recommendation.

import assert from 'node:assert/strict';
import {test} from 'node:test';
import {LONGEST, RECOMMENDED_CALIBRATION, normalizationScale, partLength, partsOf, softening, waysOf} from '../convolving.js';

const near = (found, wanted) => assert.ok(Math.abs(found - wanted) <= 1e-12 * Math.abs(wanted), `${found} in place of ${wanted}`);
const floats = (...samples) => Float32Array.from(samples);
const scaleOf = (channels, rate = 44100) => normalizationScale(channels, rate, RECOMMENDED_CALIBRATION);

test('a response is scaled by the root of the mean of its squares', () => {
  near(scaleOf([floats(1, 1, 1, 1)]), 0.00125);
  near(scaleOf([floats(0.5, -0.5)]), 0.0025);
  near(scaleOf([floats(1, 0, 0, 0)]), 0.0025);
  near(scaleOf([floats(1, 0, 0, 0), floats(0, 0, 0, 0)]), 0.00125 * Math.sqrt(8));
});

test('the scale hangs on the rate', () => {
  near(scaleOf([floats(1)], 88200), 0.000625);
  near(scaleOf([floats(1)], 48000), 0.00125 * 44100 / 48000);
});

test('a response of four channels is half as loud', () => {
  const one = floats(1, -1);
  near(scaleOf([one, one]), 0.00125);
  near(scaleOf([one, one, one, one]), 0.000625);
});

test('what is nearly silent, or no number, is scaled as a power of 0.000125', () => {
  for (const sample of [0, 1e-6, NaN, Infinity, -Infinity]) near(scaleOf([floats(sample, sample)]), 10);
  near(scaleOf([floats(0.000125)]), 0.00125 / Math.fround(0.000125));
});

test('the browser takes -58 decibels, which is 0.06 more than the recommendation', () => {
  const found = 20 * Math.log10(normalizationScale([floats(1)], 44100));
  near(found, -58);
  assert.ok(Math.abs(found - 20 * Math.log10(RECOMMENDED_CALIBRATION) - 0.0618) < 1e-4);
});

// What comes out of the ways through a response, as [left, right], where the input is one impulse a channel.
function heard(input, response) {
  const both = input.length === 1 ? [input[0], input[0]] : input, out = [0, 0];
  for (const {channel, from, to} of waysOf(response.length)) out[to] += both[from] * response[channel];
  return out;
}

test('one channel is heard through both channels of a response', () => assert.deepEqual(heard([1], [3, 5]), [3, 5]));

test('two channels are heard through one channel of a response each', () => assert.deepEqual(heard([1, 10], [3, 5]), [3, 50]));

test('of four channels two are from the left, and two from the right', () => {
  assert.deepEqual(heard([1, 0], [2, 3, 5, 7]), [2, 3]);
  assert.deepEqual(heard([0, 1], [2, 3, 5, 7]), [5, 7]);
  assert.deepEqual(heard([1, 10], [2, 3, 5, 7]), [52, 73]);
  assert.deepEqual(heard([1], [2, 3, 5, 7]), [7, 10]);
});

test('parts are a number of seconds that a value holds, where the rate allows it', () => {
  for (const [rate, frames] of [[48000, 16125], [44100, 11025], [96000, 16125], [8000, 16375], [32768, 16384], [65537, 16384]])
    assert.equal(partLength(rate), frames);
  for (let rate = 8000; rate <= 96000; rate += 25) {
    const frames = partLength(rate);
    assert.ok(frames > LONGEST / 2 && frames <= LONGEST);
    const seconds = frames / rate * 2 ** 24, isExact = Number.isInteger(seconds);
    assert.equal(Math.round(Math.round(seconds) / 2 ** 24 * rate), frames);
    assert.ok(isExact || frames === LONGEST, `${rate}`);
  }
});

test('parts are all samples but for silence at the end', () => {
  const found = partsOf(Int32Array.of(1, 2, 0, 0, 5, 6, 7, 0, 0), 3).map(part => [...part]);
  assert.deepEqual(found, [[1, 2, 0], [0, 5, 6], [7]]);
  assert.deepEqual(partsOf(new Int32Array(9), 3), []);
  assert.deepEqual(partsOf(Int32Array.of(0, 0, 0, 0, 1), 2).map(part => [...part]), [[0, 0], [0, 0], [1]]);
});

test('what is beyond 2 is made softer by a power of two', () => {
  for (const [sample, wanted] of [[1, 1], [2, 1], [-2, 1], [2.125, 2], [-4, 2], [4.5, 4], [127, 64], [1e9, 64], [Infinity, 1]])
    assert.equal(softening([floats(0, 1), floats(sample, 0)]), wanted, `${sample}`);
});
