// Buffers: their content counts at the moment when a started source acquires it.
//
// A page may write into a buffer at any time, through arrays that no recorder sees. So nothing is kept of
// the writing itself: when a source that has a buffer starts, the content is copied. waplay refuses writes
// to a buffer that a source has acquired. A buffer that was changed since it was last acquired therefore
// becomes a second one in the script: a new version, which stands before the call that gives it to its source.

import {native} from './native.js';
import {settings} from './settings.js';
import {recordingOfContext} from './recording.js';
import {loseOfList, nearestFixedList} from './values.js';
import {wrapMethod, wrapPromise} from './wrapping.js';

const versionsOfBuffer = new WeakMap(); // AudioBuffer -> Map(recording -> its versions, in order)

function versionsIn(recording, buffer) {
  if (!versionsOfBuffer.has(buffer)) versionsOfBuffer.set(buffer, new Map());
  const versions = versionsOfBuffer.get(buffer);
  if (!versions.has(recording)) versions.set(recording, []);
  return versions.get(recording);
}

// A version holds the call that makes it; `samples` has one Int32Array for each channel once it was acquired.
// For baking, `floats` has what the browser plays.
function newVersion(recording, buffer) {
  const name = recording.newName('buffer');
  const call = {op: 'createBuffer', as: name, channels: buffer.numberOfChannels, length: buffer.length,
                rate: Math.round(buffer.sampleRate)};
  const version = {name, call, samples: null, floats: null};
  if (call.rate !== buffer.sampleRate) recording.lose('context-rate', call);
  versionsIn(recording, buffer).push(version);
  recording.versions.push(version);
  return version;
}

// The name under which a call speaks of a buffer. Where the script does not know it yet, the call that makes
// it is added to `calls`.
export function bufferName(recording, buffer, calls) {
  const versions = versionsIn(recording, buffer);
  if (!versions.length) calls.push(newVersion(recording, buffer).call);
  return versions[versions.length - 1].name;
}

// The samples of a buffer. One with a detached channel is silent as a whole.
export function contentOf(buffer) {
  const channels = [];
  for (let channel = 0; channel < buffer.numberOfChannels; channel++)
    channels.push(native.getChannelData.call(buffer, channel));
  const isWhole = channels.every(samples => samples.length === buffer.length);
  return isWhole ? channels : channels.map(() => new Float32Array(buffer.length));
}

// The copy of a source of several channels has one more, a gate: its samples are 1, so it says where the source ends. A
// source of one channel needs none, and a buffer has 32 at most.
export const gatesOf = channels => channels > 1 && channels < 32 ? 1 : 0;

// A buffer with the content that a source acquired, for its copy.
export function bufferOfCopy({length, sampleRate}, floats) {
  const channels = gatesOf(floats.length) ? [...floats, new Float32Array(length).fill(1)] : floats;
  return bufferOf(channels, sampleRate);
}

// A buffer of the browser with these channels.
export function bufferOf(channels, sampleRate) {
  const buffer = new native.AudioBuffer({length: channels[0].length, numberOfChannels: channels.length, sampleRate});
  channels.forEach((samples, number) => native.getChannelData.call(buffer, number).set(samples));
  return buffer;
}

// The same for a version. Many sources may play it, so there is one.
export function bufferOfVersion(version, sampleRate) {
  version.copy = version.copy || bufferOf(version.floats, sampleRate);
  return version.copy;
}

export function equalSamples(one, other) {
  return one.length === other.length && one.every((samples, channel) => {
    const others = other[channel];
    return samples.length === others.length && samples.every((sample, place) => sample === others[place]);
  });
}

export const isSilent = samples => samples.every(channel => channel.every(sample => sample === 0));

// A source that has `buffer` starts, or a started one gets it: the script's source gets the version with this
// content, which is the answer.
export function acquireBuffer(recording, source, buffer) {
  const lists = contentOf(buffer).map(nearestFixedList);
  const samples = lists.map(list => list.wholes);
  const versions = versionsIn(recording, buffer);
  let version = versions.find(known => known.samples && equalSamples(known.samples, samples)) ||
                versions.find(known => !known.samples);
  if (!version) {
    version = newVersion(recording, buffer);
    recording.lose('buffer-written', version.call);
    source.bufferList.splice(source.bufferList.indexOf(source.bufferCall), 0, version.call);
  }
  if (!version.samples) {
    version.samples = samples;
    if (settings.lower) version.floats = contentOf(buffer).map(channel => Float32Array.from(channel));
    for (const list of lists) loseOfList(recording, list, version.call);
  }
  source.bufferCall.buffer = version.name;
  recording.acquired.set(buffer, version);
  return version;
}

// Whether buffers were written after they were last acquired is known once rendering is over.
export function loseOfLateWrites(recording) {
  for (const [buffer, version] of recording.acquired)
    if (!equalSamples(contentOf(buffer).map(channel => nearestFixedList(channel).wholes), version.samples))
      recording.lose('buffer-written', version.call);
  recording.acquired.clear();
}

export function wrapBuffers() {
  wrapMethod(BaseAudioContext.prototype, 'createBuffer', (context, args, buffer, exception) => {
    const recording = recordingOfContext.get(context);
    if (!recording || recording.leavesOut(exception)) return;
    const calls = [];
    if (buffer) bufferName(recording, buffer, calls);
    else if (Number.isInteger(+args[2]) && +args[2] >= 0) // only such a rate can be written in a script
      calls.push({op: 'createBuffer', as: recording.newName('buffer'), channels: args[0] >>> 0, length: args[1] >>> 0, rate: +args[2]});
    recording.emit(calls, exception);
  });

  // What is written counts when it is acquired. Only a refusal is a call of its own.
  wrapMethod(AudioBuffer.prototype, 'copyToChannel', (buffer, args, result, exception) => {
    if (!exception || exception.name === 'TypeError' || !versionsOfBuffer.has(buffer)) return;
    for (const [recording, versions] of versionsOfBuffer.get(buffer))
      recording.emit([{op: 'copyToChannel', buffer: versions[versions.length - 1].name, channel: args[1] >>> 0, samples: []}], exception);
  });

  wrapPromise(BaseAudioContext.prototype, 'decodeAudioData', recording => ({
    fulfilled: () => recording.lose('asset-decoded'),
    rejected() {},
  }));
}
