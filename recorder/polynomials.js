// Polynomials: one whose roots are taken apart by how often they come, in whole numbers and so without rounding.
//
// A polynomial is a list of whole numbers in falling powers, whose first one is not 0. The empty list is 0.

const BITS_OF_A_FLOAT = 53;

// Floating-point numbers times one power of two that makes all of them whole.
function wholesOf(numbers) {
  const exponents = numbers.map(number => number === 0 ? Infinity : Math.max(-1074, Math.floor(Math.log2(Math.abs(number))) - BITS_OF_A_FLOAT));
  const least = Math.min(...exponents);
  return numbers.map((number, place) =>
    number === 0 ? 0n : BigInt(number / 2 ** exponents[place]) << BigInt(exponents[place] - least));
}

const sizeOf = whole => whole < 0n ? -whole : whole;

function commonDivisor(one, other) {
  let [large, small] = [sizeOf(one), sizeOf(other)];
  while (small) [large, small] = [small, large % small];
  return large;
}

function withoutLeadingZeros(terms) {
  const first = terms.findIndex(term => term !== 0n);
  return first < 0 ? [] : terms.slice(first);
}

// The smallest whole numbers with the same roots, of which the first one is above 0.
function reduced(terms) {
  const divisor = terms.reduce(commonDivisor, 0n) * (terms[0] < 0n ? -1n : 1n);
  return terms.map(term => term / divisor);
}

// What is left of a polynomial and the quotient, where it is divided by another one. Where the latter does not divide the
// former, both are times some whole number.
function divided(terms, by) {
  const quotient = [];
  let left = [...terms];
  while (left.length >= by.length) {
    const isWhole = left[0] % by[0] === 0n, factor = isWhole ? left[0] / by[0] : left[0];
    if (!isWhole) for (const list of [left, quotient]) list.forEach((term, place) => { list[place] = term * by[0]; });
    quotient.push(factor);
    left = left.map((term, place) => place < by.length ? term - factor * by[place] : term).slice(1);
  }
  return {quotient, left: withoutLeadingZeros(left)};
}

function greatestDivisor(one, other) {
  let [large, small] = [one, other];
  while (small.length) [large, small] = [small, reduced(divided(large, small).left)];
  return reduced(large);
}

const quotientOf = (terms, by) => divided(terms, by).quotient;

const derivativeOf = terms => terms.slice(0, -1).map((term, place) => term * BigInt(terms.length - 1 - place));

function difference(one, other) {
  const length = Math.max(one.length, other.length);
  const padded = [one, other].map(terms => [...Array(length - terms.length).fill(0n), ...terms]);
  return withoutLeadingZeros(padded[0].map((term, place) => term - padded[1][place]));
}

// A polynomial of floating-point numbers, whose first one is not 0, as [{wholes, times}, ..]: the roots of `wholes` are all
// different, and come so many times. The method is that of Yun.
export function squareFreeOf(numbers) {
  const terms = reduced(wholesOf(numbers)), slope = derivativeOf(terms);
  if (!slope.length) return [];
  const common = greatestDivisor(terms, slope), parts = [];
  let left = quotientOf(terms, common);
  let further = difference(quotientOf(slope, common), derivativeOf(left));
  for (let times = 1; left.length > 1; times++) {
    const wholes = greatestDivisor(left, further);
    if (wholes.length > 1) parts.push({wholes, times});
    left = quotientOf(left, wholes);
    further = difference(quotientOf(further, wholes), derivativeOf(left));
  }
  return parts;
}
