// Seconds: the times of calls as scripts of version 2 have them, which are texts.

const BILLION = 10n ** 9n;

// The whole number at or below a quotient, for a positive divisor.
function floored(number, divisor) {
  const quotient = number / divisor; // which leaves the rest out
  return quotient * divisor > number ? quotient - 1n : quotient;
}

// The seconds of a frame at a rate, with nine digits behind the point; half a billionth goes up.
export function secondsOf(frame, rate) {
  const whole = BigInt(rate), billionths = floored(2n * BigInt(frame) * BILLION + whole, 2n * whole);
  const digits = String(billionths < 0n ? -billionths : billionths).padStart(10, '0');
  return `${billionths < 0n ? '-' : ''}${digits.slice(0, -9)}.${digits.slice(-9)}`;
}

// A call with seconds in place of the frames of these fields. At a rate of 0, which is refused, every text is frame 0.
export function inSeconds(call, rate, times) {
  const found = times.filter(name => Number.isInteger(call[name]));
  return {...call, ...Object.fromEntries(found.map(name => [name, rate ? secondsOf(call[name], rate) : '0']))};
}
