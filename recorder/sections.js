// Sections: a filter of a high order as a row of filters of order 2.
//
// The roots of both polynomials are found in whole numbers of 2^-BITS, as roots that lie together need many bits. Equal
// ones are taken apart before, see polynomials.js.

import {squareFreeOf} from './polynomials.js';
import {peakOf} from './responses.js';

const BITS = 256n, UNIT = 1n << BITS;
const MOST_TURNS = 400;
const SMALL_STEP = UNIT >> 200n; // a step after which roots count as found
const NEARLY_REAL = UNIT >> 60n;

// A floating-point number in units of 2^-BITS. What is smaller is cut off.
function wideOf(number) {
  if (number === 0) return 0n;
  const exponent = Math.max(-1000, Math.floor(Math.log2(Math.abs(number))) - 52);
  const whole = BigInt(Math.round(number / 2 ** exponent)), shift = BITS + BigInt(exponent);
  return shift >= 0n ? whole << shift : whole >> -shift;
}

const sizeOf = wide => wide < 0n ? -wide : wide;

// The nearest floating-point number. 60 bits are more than it holds.
function numberOf(wide) {
  const size = sizeOf(wide), length = BigInt(size.toString(2).length), cut = length > 60n ? length - 60n : 0n;
  const number = Number(size >> cut) * 2 ** Number(cut - BITS);
  return wide < 0n ? -number : number;
}

const times = (one, other) => (one * other) >> BITS;
const minus = ([a, b], [c, d]) => [a - c, b - d];
const timesComplex = ([a, b], [c, d]) => [times(a, c) - times(b, d), times(a, d) + times(b, c)];

function overComplex([a, b], [c, d]) {
  const size = times(c, c) + times(d, d);
  if (size === 0n) return [0n, 0n];
  return [((times(a, c) + times(b, d)) << BITS) / size, ((times(b, c) - times(a, d)) << BITS) / size];
}

// One turn of the method of Durand and Kerner. Gives the greatest step.
function improve(roots, terms) {
  let greatest = 0n;
  for (let number = 0; number < roots.length; number++) {
    const root = roots[number];
    const value = terms.slice(1).reduce((sum, term) => {
      const [real, other] = timesComplex(sum, root);
      return [real + term, other];
    }, [UNIT, 0n]);
    const apart = roots.reduce((product, other, place) => place === number ? product : timesComplex(product, minus(root, other)), [UNIT, 0n]);
    const step = overComplex(value, apart);
    roots[number] = minus(root, step);
    for (const part of step) if (sizeOf(part) > greatest) greatest = sizeOf(part);
  }
  return greatest;
}

// The roots of a polynomial in falling powers whose first term is 1.
function rootsOf(terms) {
  const order = terms.length - 1;
  const roots = Array.from({length: order}, (_, number) => {
    const angle = 0.4 + 2 * Math.PI * number / order;
    return [wideOf(0.9 * Math.cos(angle)), wideOf(0.9 * Math.sin(angle))];
  });
  for (let turn = 0; turn < MOST_TURNS; turn++)
    if (improve(roots, terms) < SMALL_STEP) break;
  return roots;
}

// A polynomial as factors of order 2, and one of order 1 where the order is odd. Their first term is 1. Roots of
// a factor are a pair of conjugates, or two real ones.
function factorsOf(terms) {
  const roots = squareFreeOf(terms).flatMap(({wholes, times}) => {
    const found = rootsOf(wholes.map(term => (term << BITS) / wholes[0]));
    return Array(times).fill(found).flat();
  });
  const real = roots.filter(root => sizeOf(root[1]) < NEARLY_REAL).map(root => root[0]);
  const pairs = roots.filter(root => root[1] >= NEARLY_REAL);
  const factors = pairs.map(([part, other]) => [1, numberOf(-2n * part), numberOf(times(part, part) + times(other, other))]);
  real.sort((one, other) => one < other ? -1 : 1);
  while (real.length > 1) {
    const one = real.pop(), other = real.pop();
    factors.push([1, numberOf(-one - other), numberOf(times(one, other))]);
  }
  if (real.length) factors.push([1, numberOf(-real[0]), 0]);
  return factors;
}

// Without the zeros at its end.
function trimmed(terms) {
  let end = terms.length;
  while (end > 1 && terms[end - 1] === 0) end--;
  return terms.slice(0, end);
}

// The factors of a numerator. Zeros at its beginning delay: each factor takes two of them.
function factorsOfNumerator(terms) {
  const delay = terms.findIndex(term => term !== 0), factors = factorsOf(trimmed(terms.slice(delay)));
  for (let left = delay; left > 0; left -= 2) factors.push(left > 1 ? [0, 0, 1] : [0, 1, 0]);
  return factors;
}

// How near the roots of a factor are to the unit circle, and how far two factors are apart.
const radiusOf = factor => Math.sqrt(Math.abs(factor[2])) || Math.abs(factor[1]);
const distanceOf = (one, other) => Math.hypot(one[1] - other[1], one[2] - other[2]);

// Each denominator with the numerator that is nearest to it, those that resonate most first.
function paired(above, below) {
  const left = [...above];
  return [...below].sort((one, other) => radiusOf(other) - radiusOf(one)).map(feedback => {
    const nearest = left.reduce((best, factor, place) => distanceOf(factor, feedback) < distanceOf(left[best], feedback) ? place : best, 0);
    return {feedforward: left.splice(nearest, 1)[0], feedback};
  });
}

// A filter as {row, gain}: sections of order 2 at most, each with a response of 1 at most, and the gain that is left.
// Null where the numerator is 0 or the first term of the denominator is.
export function sectionsOf(feedforward, feedback) {
  if (!feedback[0] || feedforward.every(term => term === 0)) return null;
  if (Math.max(feedforward.length, feedback.length) <= 3) return rowOf([{feedforward, feedback}]);
  const above = factorsOfNumerator(feedforward), below = factorsOf(trimmed(feedback));
  const count = Math.max(1, above.length, below.length);
  while (above.length < count) above.push([1, 0, 0]);
  while (below.length < count) below.push([1, 0, 0]);
  return rowOf(paired(above, below), feedforward.find(term => term !== 0) / feedback[0]);
}

// Sections of order 2 and a gain as {row, gain}, where each section has a response of 1 at most.
export function rowOf(sections, whole = 1) {
  let gain = whole;
  const row = sections.map(section => {
    const peak = peakOf([section]);
    if (!(peak > 0) || !Number.isFinite(peak)) return section;
    gain *= peak;
    return {...section, feedforward: section.feedforward.map(term => term / peak)};
  });
  return {row, gain};
}
