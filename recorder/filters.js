// Filters: coefficients as whole numbers, and biquads as IIR filters.

import {peakOf, responseError} from './responses.js';
import {ONE, nearestFixed} from './values.js';

const ROOM = 127.99;  // coefficients stay below 128
const MOST_SCALE = 2 ** 20;
const SCALES = 256;   // how many scales are tried

const isWholeFixed = number => Number.isInteger(number * ONE);

// Numerator and denominator of a filter may be multiplied by one number. One that is large saves bits. Of those
// that are at least half as large as can be, the one with the least error is taken.
function scaleOfCoefficients(feedforward, feedback) {
  const all = [...feedforward, ...feedback], greatest = Math.max(...all.map(Math.abs));
  if (!Number.isFinite(greatest) || greatest === 0) return 1;
  if (greatest < 128 && all.every(isWholeFixed)) return 1;
  const most = Math.min(MOST_SCALE, 2 ** Math.floor(Math.log2(ROOM / greatest)));
  if (all.every(term => isWholeFixed(term * most))) return most;
  let best = most, least = Infinity;
  for (let number = 0; number < SCALES; number++) {
    const scale = most * (1 - number / (2 * SCALES)), error = errorOfScale(feedforward, feedback, scale);
    if (error < least) [best, least] = [scale, error];
  }
  return best;
}

const roundingOf = term => Math.round(term * ONE) / ONE - term;

// What rounding does to a filter, for a choice between scales: the sums of all terms, which are the response to
// what is low, and the terms themselves.
function errorOfScale(feedforward, feedback, scale) {
  const relative = terms => {
    const scaled = terms.map(term => term * scale), sum = scaled.reduce((whole, term) => whole + term, 0);
    const errors = scaled.map(roundingOf), size = Math.max(...scaled.map(Math.abs));
    const ofSum = Math.abs(errors.reduce((whole, error) => whole + error, 0)) / Math.max(Math.abs(sum), size * 2 ** -40);
    return ofSum + errors.reduce((whole, error) => whole + Math.abs(error), 0) / size;
  };
  return relative(feedforward) + relative(feedback);
}

// The coefficients of a filter as a script has them: {feedforward, feedback, scale, isRounded, isInRange}.
export function roundedCoefficients(feedforward, feedback) {
  const scale = scaleOfCoefficients(feedforward, feedback);
  let isRounded = false, isInRange = true;
  const fixed = term => {
    const {whole, error, inRange} = nearestFixed(term * scale);
    isRounded = isRounded || error > 0;
    isInRange = isInRange && inRange;
    return whole;
  };
  return {feedforward: feedforward.map(fixed), feedback: feedback.map(fixed), scale, isRounded, isInRange};
}

// Puts the coefficients of a filter into its call. What the rounding does to the sound is told once the script is
// whole, see loseOfFilters.
export function putCoefficients(recording, call, feedforward, feedback) {
  const numbers = [feedforward, feedback].map(terms => Array.from(terms, Number));
  if (numbers.some(terms => !terms.every(Number.isFinite))) recording.lose('not-finite', call);
  const [above, below] = numbers.map(terms => terms.map(term => Number.isFinite(term) ? term : 0));
  const rounded = roundedCoefficients(above, below);
  Object.assign(call, {feedforward: rounded.feedforward, feedback: rounded.feedback});
  if (rounded.scale !== 1) recording.lose('coefficients-scaled', call);
  if (!rounded.isInRange) recording.lose('value-range', call);
  return {call, feedforward: above, feedback: below, isRounded: rounded.isRounded};
}

// How far the response of a row is off with the coefficients that its calls have, and whether it is another one.
export function coefficientError(row) {
  const found = row.map(({call}) => ({feedforward: call.feedforward, feedback: call.feedback}));
  const error = responseError(row, found);
  return {error, isLost: !(error < peakOf(row) / 2)};
}

// What a biquad is where its frequency is 0 or half the rate, or its Q is 0: a gain.
function biquadLimit(type, isLow, isHigh, q, amplitude) {
  if (isLow || isHigh)
    return {lowpass: isHigh ? 1 : 0, highpass: isLow ? 1 : 0, bandpass: 0, notch: 1, allpass: 1, peaking: 1,
            lowshelf: isHigh ? amplitude ** 2 : 1, highshelf: isLow ? amplitude ** 2 : 1}[type];
  if (q === 0) return {bandpass: 1, notch: 0, allpass: -1, peaking: amplitude ** 2}[type];
  return undefined;
}

// The standard's coefficients of a biquad ("Filters Characteristics"): {feedforward, feedback}, or {gain}.
export function biquadCoefficients({type, frequency, Q, gain, detune}, rate) {
  const tuned = Math.min(Math.max(frequency * 2 ** (detune / 1200), 0), rate / 2);
  const amplitude = 10 ** (gain / 40);
  const limit = biquadLimit(type, tuned <= 0, tuned >= rate / 2, Q, amplitude);
  if (limit !== undefined) return {gain: limit};
  const cosine = Math.cos(2 * Math.PI * tuned / rate), sine = Math.sin(2 * Math.PI * tuned / rate);
  const alpha = sine / (2 * Q), alphaDecibels = sine / (2 * 10 ** (Q / 20));
  const pass = width => [1 + width, -2 * cosine, 1 - width];
  const less = (1 - cosine) / 2, more = (1 + cosine) / 2;
  const shelf = () => shelfCoefficients(amplitude, cosine, sine);
  const byType = {
    lowpass: () => [[less, 2 * less, less], pass(alphaDecibels)],
    highpass: () => [[more, -2 * more, more], pass(alphaDecibels)],
    bandpass: () => [[alpha, 0, -alpha], pass(alpha)],
    notch: () => [[1, -2 * cosine, 1], pass(alpha)],
    allpass: () => [[1 - alpha, -2 * cosine, 1 + alpha], pass(alpha)],
    peaking: () => [pass(alpha * amplitude), pass(alpha / amplitude)],
    lowshelf: () => shelf().low,
    highshelf: () => shelf().high,
  };
  const [feedforward, feedback] = byType[type]();
  return {feedforward, feedback};
}

function shelfCoefficients(amplitude, cosine, sine) {
  const plus = amplitude + 1, minus = amplitude - 1;
  const width = 2 * (sine / 2 * Math.SQRT2) * Math.sqrt(amplitude);
  // The terms of a polynomial, for a sign of 1 or -1 before the cosine.
  const terms = sign => {
    const middle = plus + sign * minus * cosine;
    return [middle + width, -2 * sign * (minus + sign * plus * cosine), middle - width];
  };
  return {
    low: [terms(-1).map(term => term * amplitude), terms(1)],
    high: [terms(1).map(term => term * amplitude), terms(-1)],
  };
}
