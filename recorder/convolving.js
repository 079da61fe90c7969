// Convolving: what a convolver does with its response, by the recommendation.

export const LONGEST = 16384; // frames of a response in a script
export const LOUDEST = 2;     // how far from 0 its samples may be

// What makes a normalized response about as loud as the sound itself. Chromium takes -58 dB, which is 0.06 dB more than what
// the recommendation has. A script is to sound as its page did.
export const RECOMMENDED_CALIBRATION = 0.00125;
const CALIBRATION = 10 ** (-58 / 20);
const CALIBRATION_RATE = 44100;
const LEAST_POWER = 0.000125;
const TRUE_STEREO = 4; // channels: from left to left, left to right, right to left, right to right

const squaresOf = samples => samples.reduce((sum, sample) => sum + sample * sample, 0);

// The number by which a normalized response is multiplied.
export function normalizationScale(channels, rate, calibration = CALIBRATION) {
  const squares = channels.reduce((sum, samples) => sum + squaresOf(samples), 0);
  const power = Math.sqrt(squares / (channels.length * channels[0].length));
  const isMeant = Number.isFinite(power) && power >= LEAST_POWER;
  const scale = calibration / (isMeant ? power : LEAST_POWER) * CALIBRATION_RATE / rate;
  return channels.length === TRUE_STEREO ? scale / 2 : scale;
}

// The ways through a response of two or four channels: which of them is heard from which channel of the input, and in which
// channel of the output. An input of one channel is heard in both. A response of one channel is that of each channel.
export function waysOf(count) {
  if (count < TRUE_STEREO) return [{channel: 0, from: 0, to: 0}, {channel: 1, from: 1, to: 1}];
  return [{channel: 0, from: 0, to: 0}, {channel: 1, from: 0, to: 1}, {channel: 2, from: 1, to: 0}, {channel: 3, from: 1, to: 1}];
}

// How many frames the parts of a long response have: as many as may be, and where the rate allows it, so many that they are
// a number of seconds that a value holds exactly.
export function partLength(rate) {
  let odd = rate;
  while (odd % 2 === 0) odd /= 2;
  return odd <= LONGEST ? Math.floor(LONGEST / odd) * odd : LONGEST;
}

// The parts of some samples, of which the last one may be shorter. Silence at the end has none.
export function partsOf(samples, length) {
  const end = samples.findLastIndex(sample => sample !== 0) + 1, parts = [];
  for (let begin = 0; begin < end; begin += length) parts.push(samples.subarray(begin, Math.min(end, begin + length)));
  return parts;
}

// The power of two by which a response has to be softer, so that a script may have its samples.
export function softening(channels) {
  let most = 0;
  for (const samples of channels) for (const sample of samples) if (Math.abs(sample) > most) most = Math.abs(sample);
  return most > LOUDEST && Number.isFinite(most) ? 2 ** Math.min(6, Math.ceil(Math.log2(most / LOUDEST))) : 1;
}
