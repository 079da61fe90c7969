// Values and times as whole numbers.

import assert from 'node:assert/strict';
import {test} from 'node:test';
import {fixedValue, frameOf, framePlace, isBehindFrame, nearestFixed, nearestFixedList, schedulePlace} from '../values.js';

function recordingOf(rate) {
  const losses = [];
  return {rate, losses, lose: (kind, call, error) => losses.push([kind, error])};
}

test('a value is a multiple of 2^-24', () => {
  assert.deepEqual(nearestFixed(0.5), {whole: 2 ** 23, error: 0, inRange: true});
  assert.equal(nearestFixed(-128).inRange, true);
  assert.deepEqual(nearestFixed(128), {whole: 2 ** 31 - 1, error: 2 ** -24, inRange: false});
});

test('a value is that of a single float, and its rounding is told', () => {
  const recording = recordingOf(48000);
  assert.equal(fixedValue(recording, 0.1, null), Math.round(Math.fround(0.1) * 2 ** 24));
  assert.equal(recording.losses[0][0], 'value-rounded');
  assert.equal(fixedValue(recording, NaN, null), 0);
  assert.equal(recording.losses[1][0], 'not-finite');
});

test('samples are counted as they are lost', () => {
  const {rounded, outside, unreal} = nearestFixedList([0.5, 0.1, 200, Infinity]);
  assert.deepEqual({rounded, outside, unreal}, {rounded: 1, outside: 1, unreal: 1});
});

test('a time within a millionth of a frame is that frame', () => {
  const recording = recordingOf(48000);
  assert.equal(framePlace(recording, 0.07), 3360);
  assert.equal(frameOf(recording, 0.09 - 0.02, null, 'next'), 3360);
  assert.equal(recording.losses[0][0], 'time-near-frame');
});

test('a place that stayed behind a frame is the next one', () => {
  const recording = recordingOf(48000), place = 0.07 * 48000;
  assert.deepEqual([isBehindFrame(place), isBehindFrame(3360), isBehindFrame(3360.5)], [true, false, false]);
  assert.equal(frameOf(recording, 0.07, null, 'next', place), 3361);
  assert.equal(frameOf(recording, 0.07, null, 'nearest', place), 3361);
});

test('a start is taken to the nearest 1/1024 of a frame', () => {
  const recording = recordingOf(1000);
  assert.equal(schedulePlace(recording, 0.1004), 100 + 410 / 1024);
  assert.equal(schedulePlace(recording, 0.1000004), 100);
});

test('a time between two frames is the next one, or the nearest', () => {
  const recording = recordingOf(1000);
  assert.equal(frameOf(recording, 0.0102, null, 'next'), 11);
  assert.equal(frameOf(recording, 0.0102, null, 'nearest'), 10);
  assert.deepEqual(recording.losses.map(([kind]) => kind), ['time-next-frame', 'time-rounded']);
});
