// What several pieces use: noise that is the same each time, notes, and a piano roll.

function noiseBuffer(context, seconds, channels = 1, seed = 1) {
  let state = seed;
  const buffer = context.createBuffer(channels, Math.round(seconds * context.sampleRate), context.sampleRate);
  for (let channel = 0; channel < channels; channel++)
    buffer.getChannelData(channel).forEach((_, frame, all) => {
      state = (Math.imul(state, 1664525) + 1013904223) >>> 0;
      all[frame] = state / 2 ** 31 - 1;
    });
  return buffer;
}

// Noise that dies away, as a room does.
function roomBuffer(context, seconds, channels = 2) {
  const buffer = noiseBuffer(context, seconds, channels, 5);
  for (let channel = 0; channel < channels; channel++)
    buffer.getChannelData(channel).forEach((sample, frame, all) => {
      all[frame] = sample * Math.exp(-6 * frame / all.length);
    });
  return buffer;
}

const noteFrequency = note => 440 * 2 ** ((note - 69) / 12);

const SCALE = [0, 3, 5, 7, 10];
const noteOf = step => 45 + SCALE[step % 5] + 12 * (Math.floor(step / 5) % 3);

// A note with an envelope; gives its gain, which leads to nothing yet.
function pluck(context, {type = 'triangle', note, time, length = 0.3, level = 0.3}) {
  const tone = context.createOscillator(), gain = context.createGain();
  tone.type = type;
  tone.frequency.value = noteFrequency(note);
  gain.gain.setValueAtTime(0, time);
  gain.gain.linearRampToValueAtTime(level, time + 0.01);
  gain.gain.exponentialRampToValueAtTime(0.001, time + length);
  tone.connect(gain);
  tone.start(time);
  tone.stop(time + length);
  return gain;
}
