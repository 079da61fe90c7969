// Start: the recorder steps in, and what people and tools call is put under the name waplayRecorder.

import {act} from './actions.js';
import {wrapBuffers} from './buffers.js';
import {holdClock, realTime} from './clock.js';
import {wrapConnections} from './connections.js';
import {wrapContexts} from './contexts.js';
import {wrapNodes} from './nodes.js';
import {settings} from './settings.js';
import {wrapParameters} from './parameters.js';
import {recordings} from './recording.js';
import {writeReport} from './report.js';
import {goRealTime, replaceAudioContext} from './real_time.js';
import {finish, interleaved, writeScript} from './script.js';
import {wrapSources} from './sources.js';
import {replaceTimers} from './timers.js';
import {replaceWorkers} from './workers.js';
import {faults, wrapConstructor} from './wrapping.js';

const hide = (name, value) =>
  Object.defineProperty(globalThis, name, {value, writable: true, enumerable: false, configurable: true});

function stepIn() {
  wrapContexts();
  wrapNodes();
  wrapConnections();
  wrapBuffers();
  wrapSources();
  wrapParameters();
  if (settings.realtime) {
    replaceAudioContext();
    replaceTimers();
    replaceWorkers();
  } else wrapConstructor('AudioContext', () => { realTime.unrecorded++; });
  // A page that goes through the names of its window does not see ours.
  hide('waplayRecorder', waplayRecorder);
  if (globalThis.waplayRecorderOptions) hide('waplayRecorderOptions', globalThis.waplayRecorderOptions);
}

const CHUNK = 2 ** 21; // words of samples that are handed over at once

function base64Of(words) {
  const bytes = new Uint8Array(words.buffer, words.byteOffset, words.byteLength);
  let text = '';
  for (let place = 0; place < bytes.length; place += 32768) text += String.fromCharCode(...bytes.subarray(place, place + 32768));
  return btoa(text);
}

// The script and the report of a context, written once for each form.
async function finished(number, withAssets, name) {
  const recording = recordings[number - 1], form = withAssets ? `files ${name}` : 'text';
  if (!recording) throw new RangeError(`there is no context ${number}; ${recordings.length} were recorded`);
  if (!recording.written[form]) {
    await finish(recording);
    const script = writeScript(recording, withAssets, name);
    recording.written[form] = {recording, script, report: writeReport(recording, script)};
  }
  return recording.written[form];
}

// The same for people, who may ask too early.
async function finishedText(number) {
  const recording = recordings[number - 1];
  if (recording && recording.phase !== 'complete') throw new Error(`context ${number} has not been rendered yet`);
  return finished(number, false);
}

const waplayRecorder = {
  // The script of a context as one text, with all samples in it. Contexts are numbered from 1.
  async text(number = 1) {
    return (await finishedText(number)).script.text;
  },

  // Its report.
  async report(number = 1) {
    const {report} = await finishedText(number);
    return [...report.lines, `verdict: ${report.verdict}`].join('\n') + '\n';
  },

  // Says that the piece begins with what comes next, as a click. Only with the options realtime and click.
  hold: holdClock,

  // Begins to do what a text of actions says, see actions.js. In a real-time piece `hold` comes before it.
  act(text) {
    act(text); // what it throws is told as an exception of the page
  },

  // Records a real-time piece, once it was started. Only with the option realtime.
  go: () => settings.realtime ? goRealTime() : Promise.resolve(false),

  // What tools/record asks. This and `result`, `assetChunk` and `renderedChunk` are all that it knows of the recorder.
  //
  // What has happened so far: counts of contexts, of those that started rendering, are complete, and stand at a
  // suspension of the page, of real-time contexts with and without the option realtime, and of what is waited for; the
  // seconds of sound of the contexts that started; a number that grows while `result` works; and faults of the recorder.
  progress() {
    const started = recordings.filter(recording => recording.start);
    return {
      contexts: recordings.length,
      realTime: realTime.contexts.length,
      unrecorded: realTime.unrecorded,
      waiting: realTime.waiting,
      started: started.length,
      complete: recordings.filter(recording => recording.phase === 'complete').length,
      suspended: recordings.filter(recording => recording.phase === 'suspended' && !recording.isRealTime).length,
      seconds: started.reduce((sum, {length, rate}) => sum + length / rate, 0),
      work: recordings.reduce((sum, {work}) => sum + work, 0),
      faults: faults.slice(0, 20),
    };
  },

  // The script of a context, its report and its assets, whose paths begin with `name`:
  //   started    whether it started rendering
  //   script     the text
  //   lines, verdict, grades   the report; `grades` are those that occur, see losses.js
  //   kinds      [{kind, grade, count, error}, ..]
  //   frozen     [{name, kind, why}, ..] of the nodes that are frozen; `live` is how much of the sound is not, from 0 to 1
  //   calls      how many calls the script has
  //   outcomes   [[number of the call, name of its exception], ..]
  //   assets     [{path, channels, length, rate}, ..]
  //   rendered   {channels, length, rate}, or null where rendering did not end
  // Samples come in chunks, as base64 of little-endian words.
  async result(number, name = number) {
    const {recording, script, report} = await finished(number, true, name);
    this.kept = {assets: script.assets, rendered: recording.rendered, place: null, words: null};
    return {
      started: Boolean(recording.start), script: script.text, ...report,
      outcomes: [...recording.outcomes].map(([call, exception]) => [script.numbers.get(call), exception]).filter(([ordinal]) => ordinal),
      assets: script.assets.map(({path, channels, length, rate}) => ({path, channels, length, rate})),
      rendered: recording.rendered && {channels: recording.channels, length: recording.length, rate: recording.rate},
    };
  },

  // The 32-bit words of an asset, from a first one on.
  assetChunk(place, first) {
    const {kept} = this, {samples, length} = kept.assets[place];
    if (kept.place !== place) Object.assign(kept, {place, words: interleaved(samples, length)});
    return base64Of(kept.words.subarray(first, first + CHUNK));
  },

  // The floats of a rendered channel, from a first one on.
  renderedChunk(channel, first) {
    return base64Of(this.kept.rendered[channel].subarray(first, first + CHUNK));
  },
};

if (globalThis.OfflineAudioContext && !globalThis.waplayRecorder) stepIn();
