// Responses: what filters do to a sound, worked out of their coefficients.
//
// A section is {feedforward, feedback}, and a row of sections is a list of them. Coefficients are real numbers.

const ANGLES = 2048;
const LONGEST = 2 ** 20; // frames after which what is left of an impulse is taken to go on for ever
const BLOCK = 4096;
const TRIED = 8192; // frames of a noise, and of a step

// The value of a polynomial in 1 / z, at an angle of the unit circle.
function valueAt(terms, angle) {
  const cosine = Math.cos(angle), sine = Math.sin(angle);
  let real = 0, other = 0;
  for (let power = terms.length - 1; power >= 0; power--) {
    const turned = real * cosine + other * sine;
    other = other * cosine - real * sine;
    real = turned + terms[power];
  }
  return [real, other];
}

const overComplex = ([a, b], [c, d]) => [(a * c + b * d) / (c * c + d * d), (b * c - a * d) / (c * c + d * d)];
const timesComplex = ([a, b], [c, d]) => [a * c - b * d, a * d + b * c];

const responseAt = (section, angle) => overComplex(valueAt(section.feedforward, angle), valueAt(section.feedback, angle));

// The response of a row of sections at an angle.
const rowAt = (row, angle) => row.reduce((whole, section) => timesComplex(whole, responseAt(section, angle)), [1, 0]);

// Where a polynomial of order 2 comes nearest to 0 on the unit circle.
function nearestAngle([first, second = 0, third = 0]) {
  const cosine = -second * (first + third) / (4 * first * third);
  return Number.isFinite(cosine) && Math.abs(cosine) < 1 ? Math.acos(cosine) : null;
}

// Angles from 0 to pi, closer to each other where they are low, and those at which the sections of a row resonate.
function anglesOf(row, count = ANGLES) {
  const angles = Array.from({length: count + 1}, (_, place) => Math.PI * (place / count) ** 3);
  for (const {feedback} of row) {
    const angle = nearestAngle(feedback);
    if (angle !== null) angles.push(angle * 0.999, angle, angle * 1.001);
  }
  return angles.filter(angle => angle <= Math.PI);
}

// The greatest size of a row's response.
export function peakOf(row) {
  return anglesOf(row).reduce((most, angle) => Math.max(most, Math.hypot(...rowAt(row, angle))), 0);
}

// The greatest distance of the responses of two rows.
export function responseError(row, other) {
  return anglesOf(row).reduce((most, angle) => {
    const [real, turned] = rowAt(row, angle), [itsReal, itsTurned] = rowAt(other, angle);
    return Math.max(most, Math.hypot(real - itsReal, turned - itsTurned));
  }, 0);
}

// A filter that takes one sample after the other. What is fed back is what `kept` makes of it.
function runner({feedforward, feedback}, kept = Number) {
  const before = new Float64Array(feedforward.length), after = new Float64Array(feedback.length);
  return sample => {
    before.copyWithin(1, 0);
    before[0] = sample;
    let sum = 0;
    for (let place = 0; place < before.length; place++) sum += feedforward[place] * before[place];
    for (let place = 1; place < after.length; place++) sum -= feedback[place] * after[place - 1];
    const result = kept(sum / feedback[0]);
    after.copyWithin(1, 0);
    after[0] = result;
    return result;
  };
}

// The sum of the sizes of all that an impulse leaves behind in a row. Infinity where it does not come to rest.
export function impulseSum(row) {
  const runners = row.map(section => runner(section));
  let sum = 0, greatestBlock = 0;
  for (let frame = 0; frame < LONGEST;) {
    let block = 0;
    for (const end = frame + BLOCK; frame < end; frame++)
      block += Math.abs(runners.reduce((sample, run) => run(sample), frame === 0 ? 1 : 0));
    sum += block;
    greatestBlock = Math.max(greatestBlock, block);
    if (!Number.isFinite(sum)) return Infinity;
    if (block < 1e-6 * greatestBlock) return sum;
  }
  return Infinity;
}

// How far the output of a row may be off where each section's output is rounded to whole numbers of `step` before
// it is fed back: half a step for each frame, and all that this leaves behind.
export function feedbackError(row, step) {
  return row.reduce((sum, {feedback}, place) =>
    sum + step / 2 * impulseSum([{feedforward: [feedback[0]], feedback}, ...row.slice(place + 1)]), 0);
}

// How far what comes out of `filter` is from what comes out of `exact`, both of which take one sample after the other: for a
// noise and for a step of full scale. It is 1 at most, which stands for a filter that does not come to rest.
function distance(filter, exact) {
  let noise = 1, most = 0;
  for (let frame = 0; frame < 2 * TRIED; frame++) {
    noise = (Math.imul(noise, 1664525) + 1013904223) >>> 0;
    const sample = frame < TRIED ? noise / 2 ** 31 - 1 : 1;
    most = Math.max(most, Math.abs(filter(sample) - exact(sample)));
    if (!(most < 1)) return 1;
  }
  return most;
}

// How far a biquad is off in Chromium, which feeds back single floats.
export const biquadErrorOfBrowser = biquad => distance(runner(biquad, Math.fround), runner(biquad));

// How far an IIR filter is off there, which feeds back double ones in one section. A row of sections is exact.
export function filterErrorOfBrowser(filter, {row, gain}) {
  const runners = row.map(section => runner(section));
  return distance(runner(filter), sample => gain * runners.reduce((sum, run) => run(sum), sample));
}
