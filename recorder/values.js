// Values and times: from a page's floating-point numbers to a script's whole ones.
//
// A script holds a value or a sample v as the whole number v * 2^24, and a time as a number of frames.

export const ONE = 2 ** 24;
const LOWEST = -(2 ** 31), HIGHEST = 2 ** 31 - 1;
export const LAST_FRAME = 2 ** 40;
const ROOM_OF_A_FRAME = 1e-6; // a time this near to a frame is meant as that frame: k / rate is rounded in double

export const isGiven = value => value !== undefined && value !== null;

// The nearest whole number of 2^-24, and how far away it is. Out of range it is the lowest or the highest.
export function nearestFixed(number) {
  const exact = number * ONE;
  const whole = Math.min(HIGHEST, Math.max(LOWEST, Math.round(exact))) || 0; // `|| 0` takes away the sign of -0
  return {whole, error: Math.abs(whole - exact) / ONE, inRange: Math.round(exact) >= LOWEST && Math.round(exact) <= HIGHEST};
}

// A value of a parameter. Parameters are single floats, so that is what the browser computes with.
export function fixedValue(recording, number, call) {
  if (!Number.isFinite(number)) {
    recording.lose('not-finite', call);
    return 0;
  }
  const {whole, error, inRange} = nearestFixed(Math.fround(number));
  if (!inRange) recording.lose('value-range', call);
  else if (error > 0) recording.lose('value-rounded', call, error);
  return whole;
}

// A list of samples or of points of a curve, and how many of them are not as they were.
export function nearestFixedList(numbers) {
  const wholes = new Int32Array(numbers.length);
  let rounded = 0, outside = 0, unreal = 0, greatest = 0;
  for (let place = 0; place < numbers.length; place++) {
    const number = Math.fround(numbers[place]);
    if (!Number.isFinite(number)) {
      unreal++;
      continue;
    }
    const exact = number * ONE, whole = Math.round(exact), error = Math.abs(whole - exact); // as nearestFixed, but quicker
    wholes[place] = Math.min(HIGHEST, Math.max(LOWEST, whole));
    if (whole < LOWEST || whole > HIGHEST) outside++;
    else if (error > 0) {
      rounded++;
      if (error > greatest) greatest = error;
    }
  }
  return {wholes, rounded, outside, unreal, greatest: greatest / ONE};
}

// The same for a call. One loss of a kind stands for the whole list, with the number of its items.
export function loseOfList(recording, {rounded, outside, unreal, greatest}, call) {
  if (unreal) recording.lose('not-finite', call, 0, unreal);
  if (outside) recording.lose('sample-range', call, 0, outside);
  if (rounded) recording.lose('sample-rounded', call, greatest, rounded);
}

export function fixedList(recording, numbers, call) {
  const list = nearestFixedList(numbers);
  loseOfList(recording, list, call);
  return Array.from(list.wholes);
}

// A delay in seconds. It stays a value in seconds, and waplay makes frames of it: whole frames come back whole.
export function fixedSeconds(recording, seconds, call) {
  if (!Number.isFinite(seconds)) {
    recording.lose('not-finite', call);
    return 0;
  }
  const {whole, inRange} = nearestFixed(Math.fround(seconds));
  const frames = Math.fround(seconds) * recording.rate;
  const fraction = Math.abs(frames - Math.round(frames));
  if (!inRange) recording.lose('value-range', call);
  else if (fraction > 4e-7 * Math.max(2.5, frames)) recording.lose('delay-fraction', call, fraction); // single floats have 24 bits
  return whole;
}

const isNear = (place, frame) => Math.abs(place - frame) <= ROOM_OF_A_FRAME + Math.abs(place) * 4e-16;

// The place of a time among the frames, as a real number. One that is meant as a whole frame is whole.
export function framePlace(recording, seconds) {
  const place = seconds * recording.rate, frame = Math.round(place);
  return isNear(place, frame) ? frame : place;
}

// The same for the start and the stop of a source, which the browser takes to the nearest 1/1024 of a frame.
export const schedulePlace = (recording, seconds) => Math.round(seconds * recording.rate * 1024) / 1024;

// Whether a place is by a rounding behind a frame, and was not taken to it.
export const isBehindFrame = place => !Number.isInteger(place) && isNear(place, Math.floor(place));

// A time as a frame. `rule` is
//   'next'      where the standard acts at the first frame at or after the time: nothing is lost
//   'nearest'   where the fraction has a meaning: the fraction is lost
export function frameOf(recording, seconds, call, rule, place = framePlace(recording, seconds)) {
  if (!Number.isFinite(seconds)) {
    recording.lose('not-finite', call);
    return 0;
  }
  const exact = seconds * recording.rate;
  if (Math.abs(exact) > LAST_FRAME) return exact > 0 ? LAST_FRAME : -LAST_FRAME;
  if (exact < 0) return Math.min(-1, Math.round(exact)); // refused as negative, also where it is nearly 0
  if (Number.isInteger(place)) {
    if (place !== exact) recording.lose('time-near-frame', call, Math.abs(place - exact));
    return place;
  }
  const frame = rule === 'next' || isBehindFrame(place) ? Math.ceil(place) : Math.round(place);
  recording.lose(rule === 'next' ? 'time-next-frame' : 'time-rounded', call, Math.abs(frame - place));
  return frame;
}
