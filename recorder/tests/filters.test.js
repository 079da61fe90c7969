// Coefficients of filters: as whole numbers, and as rows of order 2.

import assert from 'node:assert/strict';
import {test} from 'node:test';
import {biquadCoefficients, roundedCoefficients} from '../filters.js';
import {biquadErrorOfBrowser, feedbackError, filterErrorOfBrowser, impulseSum, peakOf, responseError} from '../responses.js';
import {squareFreeOf} from '../polynomials.js';
import {sectionsOf} from '../sections.js';

const product = (one, other) => {
  const terms = new Array(one.length + other.length - 1).fill(0);
  one.forEach((term, place) => other.forEach((factor, further) => { terms[place + further] += term * factor; }));
  return terms;
};

// A lowpass of order 2 by the formulas of the recommendation, where Q is in decibels.
const lowpass = (frequency, Q) => biquadCoefficients({type: 'lowpass', frequency, Q, gain: 0, detune: 0}, 48000);

// A row with its gain in the last section.
const whole = ({row, gain}) => row.map((section, place) =>
  place < row.length - 1 ? section : {...section, feedforward: section.feedforward.map(term => term * gain)});

const joined = sections => ({feedforward: sections.reduce((terms, {feedforward}) => product(terms, feedforward), [1]),
                             feedback: sections.reduce((terms, {feedback}) => product(terms, feedback), [1])});

const power = (terms, times) => Array(times).fill(terms).reduce(product, [1]);

test('equal roots are taken apart by how often they come', () => {
  const terms = [power([1, 2, -1], 3), power([1, -0.5], 5), [1, 0.75], power([1, 0, 1], 2)].reduce(product, [0.375]);
  const found = squareFreeOf(terms).map(({wholes, times}) => [times, ...wholes.map(Number)]);
  assert.deepEqual(found, [[1, 4, 3], [2, 1, 0, 1], [3, 1, 2, -1], [5, 2, -1]]);
  assert.deepEqual(squareFreeOf([0.1]), []);
  assert.deepEqual(squareFreeOf([0.25, 0, -1]), [{wholes: [1n, 0n, -4n], times: 1}]);
});

test('filters with equal zeros keep all of them', () => {
  for (const zeros of [[1, 2, -1], [1, -0.5], [1, 1], [1, 0.25, 0.5]])
    for (let times = 2; times < 9; times++) {
      const filter = {feedforward: power(zeros, times), feedback: power([1, -0.25], 3)};
      assert.ok(responseError([filter], whole(sectionsOf(filter.feedforward, filter.feedback))) < 1e-9 * peakOf([filter]));
    }
});

test('a lowpass lets 0 through and keeps half the rate back', () => {
  const {feedforward, feedback} = lowpass(1000, 0), sum = terms => terms.reduce((total, term) => total + term, 0);
  assert.ok(Math.abs(sum(feedforward) / sum(feedback) - 1) < 1e-9);
  assert.ok(Math.abs(feedforward[0] - feedforward[1] + feedforward[2]) < 1e-12);
});

test('filters of a high order are the product of their sections', () => {
  const rows = [[lowpass(200, 3), lowpass(200, 3)], [lowpass(3000, 0), lowpass(900, 6), lowpass(5000, -3)],
                Array(4).fill(lowpass(3000, 3)), [{feedforward: [1, 1], feedback: [1, -0.5]}, lowpass(500, 0)]];
  for (const row of rows) {
    const {feedforward, feedback} = joined(row), found = sectionsOf(feedforward, feedback);
    assert.ok(responseError([{feedforward, feedback}], whole(found)) < 1e-7 * Math.max(1, peakOf(row)));
    for (const section of found.row) assert.ok(peakOf([section]) < 1 + 1e-9);
  }
});

test('zeros in front of a numerator delay', () => {
  const found = sectionsOf([0, 0, 0, 0.5], [1, -0.5]);
  assert.equal(found.row.length, 2);
  assert.ok(responseError([{feedforward: [0, 0, 0, 0.5], feedback: [1, -0.5]}], whole(found)) < 1e-12);
});

test('a numerator of zeros has no sections', () => {
  assert.equal(sectionsOf([0, 0, 0, 0], [1, 0, 0, 0.5]), null);
});

test('the impulse of a filter with one pole adds up to 1 / (1 - p)', () => {
  assert.ok(Math.abs(impulseSum([{feedforward: [1], feedback: [1, -0.75]}]) - 4) < 1e-4);
  assert.equal(impulseSum([{feedforward: [1], feedback: [1, -1]}]), Infinity);
});

test('what is fed back is off by half a step for each frame at most', () => {
  assert.ok(Math.abs(feedbackError([{feedforward: [1], feedback: [1, -0.75]}], 2 ** -24) - 4 * 2 ** -25) < 1e-10);
});

test('coefficients that are whole stay as they are', () => {
  const {feedforward, feedback, scale, isRounded} = roundedCoefficients([0.5], [1, -0.25]);
  assert.deepEqual({feedforward, feedback, scale, isRounded},
                   {feedforward: [2 ** 23], feedback: [2 ** 24, -(2 ** 22)], scale: 1, isRounded: false});
});

test('rounding keeps the response of a low filter', () => {
  const exact = lowpass(20, 0), {feedforward, feedback} = roundedCoefficients(exact.feedforward.map(term => term * 32), exact.feedback);
  assert.ok(responseError([{...exact, feedforward: exact.feedforward.map(term => term * 32)}], [{feedforward, feedback}]) < 32 * 2e-4);
});

test('Chromium is less exact in low biquads and in filters of high orders', () => {
  assert.ok(biquadErrorOfBrowser(lowpass(3000, 3)) < 2 ** -20);
  assert.ok(biquadErrorOfBrowser(lowpass(30, 3)) > 2 ** -11);
  const errorOf = (section, times) => {
    const filter = joined(Array(times).fill(section));
    return filterErrorOfBrowser(filter, sectionsOf(filter.feedforward, filter.feedback));
  };
  assert.ok(errorOf(lowpass(200, 1), 2) < 2 ** -20);
  assert.ok(errorOf(lowpass(30, 1), 3) > 2 ** -10);
  assert.equal(errorOf(lowpass(30, 1), 4), 1);
});
