// Scripts: the recorded calls as the JSON text that waplay reads, and the buffers as assets.

import {bakeSources} from './baking.js';
import {equalSamples, isSilent} from './buffers.js';
import {lowerConvolvers, writeConvolvers} from './convolvers.js';
import {freeze, planOf} from './freezing.js';
import {Graph} from './graph.js';
import {ASSET_LIMIT, BUFFER_LIMIT, SCRIPT_LIMIT, loseOfContext, loseOfSizes} from './limits.js';
import {loseOfFilters, lowerFilters} from './filter_rows.js';
import {lowerLoops} from './loops.js';
import {timesOf} from './operations.js';
import {lowerPanners} from './panners.js';
import {quantumMember} from './quanta.js';
import {Replacements} from './replacing.js';
import {inSeconds} from './seconds.js';
import {settings} from './settings.js';
import {loseOfTargets} from './targets.js';
import {ONE} from './values.js';
import {passedLimit, voicesOf} from './voices.js';
import {Widths} from './widths.js';
import {faults} from './wrapping.js';

// Suspensions that changed nothing, as those at which a timer found nothing to do.
function dropIdleSuspensions(recording) {
  recording.removeCalls(call => call.op === 'suspend' && call.then.length && call.then.every(inner => inner.op === 'resume'));
}

function depthOf(list) {
  return list.reduce((most, call) => call.then ? Math.max(most, 1 + depthOf(call.then)) : most, 0);
}

// Suspensions that were asked for within others come to the main list: lists nest only so deep, and the frames
// alone say in which order suspensions come.
function flattenSuspensions(recording) {
  const found = new Set(), {main} = recording;
  recording.eachCall((call, list) => {
    if (call.op === 'suspend' && list !== main && !recording.outcomes.has(call)) found.add(call);
  });
  recording.removeCalls(call => found.has(call));
  const start = main.indexOf(recording.start), rest = main.splice(start < 0 ? main.length : start);
  for (const call of [...found].sort((one, other) => one.time - other.time)) main.push(call);
  for (const call of rest) main.push(call);
}

function lowerAnalysers(recording, replacements) {
  for (const entry of recording.analysers) {
    const call = {op: 'createGain', as: entry.name};
    recording.lose('lowered-analyser', call);
    replacements.put(entry, [call]);
  }
}

// Freezes what has to be, and gives the plan of it. Where the sound of single nodes has no room, that of voices may have.
async function freezeAll(recording, graph, widths, replacements) {
  const plain = planOf(recording, graph, widths), passed = passedLimit(recording, graph, plain);
  const withVoices = () => planOf(recording, graph, widths, voicesOf(recording, graph, widths));
  const done = plan => plan.reasons.size + plan.voices.length === 0 ||
    freeze(recording, graph, widths, plan, replacements, passed || `${BUFFER_LIMIT} samples`);
  const plan = passed ? withVoices() : plain;
  await lowerLoops(recording, graph, widths, plan);
  if (await done(plan)) return plan;
  const other = passed ? plan : withVoices();
  if (!other.voices.length || other === plan || !await done(other)) recording.lose('freezing-failed', null, 0, plan.frozen.size);
  return other;
}

// Replaces what can be replaced of a recording that is complete. Filters come last, as the levels inside them are
// measured in what is there by then.
async function lower(recording) {
  const nodes = new Replacements(recording), graph = new Graph(recording), widths = new Widths(graph);
  const plan = await freezeAll(recording, graph, widths, nodes);
  await bakeSources(recording, nodes);
  lowerAnalysers(recording, nodes);
  lowerPanners(recording, plan.panners, nodes);
  lowerConvolvers(recording, plan.convolvers, nodes);
  recording.removeCalls(call => call.op === 'setListener'); // panners alone hear of it
  nodes.apply();
  const isLeft = recording.sources.some(source => source.creation.op === 'createOscillator');
  if (!isLeft) recording.removeCalls(call => call.op === 'createPeriodicWave');
  const filters = new Replacements(recording);
  await lowerFilters(recording, filters, graph);
  filters.apply();
  loseOfTargets(recording);
}

// What is done once before a recording is written.
export async function finish(recording) {
  if (recording.isFinished) return;
  recording.isFinished = true;
  if (recording.isRealTime) flattenSuspensions(recording);
  if (recording.phase !== 'complete') recording.lose('not-finished');
  else if (settings.lower) await lower(recording).catch(fault => {
    faults.push(String(fault && fault.stack || fault));
    recording.lose('recorder-fault');
  });
  writeConvolvers(recording);
  if (depthOf(recording.main) > 40) flattenSuspensions(recording);
  if (recording.isRealTime) dropIdleSuspensions(recording);
  loseOfFilters(recording);
  if (loseOfContext(recording)) loseOfSizes(recording);
}

// Runs of samples that a 32-bit WAV file cannot hold, which are those outside -1 to 1.
function runsOutside(samples) {
  const runs = [];
  let run = null;
  samples.forEach((sample, place) => {
    if (sample >= -ONE && sample <= ONE) return;
    if (run && place - run.end < 16) run.end = place + 1;
    else runs.push(run = {first: place, end: place + 1});
  });
  return runs;
}

const copyCall = (version, channel, samples, first) =>
  ({op: 'copyToChannel', buffer: version.name, channel, samples: Array.from(samples), ...(first ? {at: first} : {})});

// The word of a sample. A whole number v of 2^-24 is 128 v in 32 bits, and 1 is the greatest word, which waplay reads
// as 1.
const wordOf = sample => sample >= ONE ? 2 ** 31 - 1 : Math.max(-ONE, sample) * 128;

// The bytes of an asset: its channels interleaved.
export function interleaved(channels, length) {
  const words = new Int32Array(channels.length * length);
  channels.forEach((samples, channel) => samples.forEach((sample, frame) => {
    words[frame * channels.length + channel] = wordOf(sample);
  }));
  return words;
}

// The calls that make a buffer with its samples. With `assets` its samples are a file, and what that cannot
// hold is written over it; else all samples are in the script.
function bufferCalls(recording, version, assets, name) {
  const {call, samples} = version;
  if (!samples || isSilent(samples) || call.rate !== recording.rate) return [call]; // another rate is refused in any case
  if (!assets) return [call, ...samples.map((channel, number) => copyCall(version, number, channel, 0))];
  if (44 + samples.length * call.length * 4 > ASSET_LIMIT) {
    recording.lose('asset-size', call);
    return [call];
  }
  const known = assets.find(asset => equalSamples(asset.samples, samples));
  const path = known ? known.path : `${name}-b${assets.length + 1}.wav`;
  if (!known) assets.push({path, samples, channels: samples.length, length: call.length, rate: call.rate});
  const patches = samples.flatMap((channel, number) =>
    runsOutside(channel).map(({first, end}) => copyCall(version, number, channel.subarray(first, end), first)));
  return [{op: 'decodeAudioData', as: version.name, path}, ...patches];
}

// The script of a finished recording: {text, assets, numbers}. `numbers` has the ordinal of each call.
export function writeScript(recording, withAssets, name) {
  const assets = withAssets ? [] : null, numbers = new Map();
  const versionOfCall = new Map(recording.versions.map(version => [version.call, version]));
  const {channels, length} = recording, rate = Math.max(0, Math.round(recording.rate));
  const timed = call => settings.seconds ? inSeconds(call, rate, timesOf(call.op)) : call;
  let count = 0;
  const write = list => list.flatMap(call => {
    const version = versionOfCall.get(call);
    const parts = version ? bufferCalls(recording, version, assets, name) : [call];
    numbers.set(call, count + 1);
    return parts.map(part => {
      count++;
      return timed(part.then ? {...part, then: write(part.then)} : part);
    });
  });
  const calls = write(recording.main);
  const version = settings.seconds ? 2 : 1, head = JSON.stringify({channels, length, rate, ...quantumMember(recording)});
  const lines = calls.map(call => '  ' + JSON.stringify(call)).join(',\n');
  const text = `{"version": ${version}, "context": ${head}, "calls": [\n${lines}\n]}\n`;
  if (new TextEncoder().encode(text).length > SCRIPT_LIMIT) recording.lose('script-length');
  return {text, assets: assets || [], numbers, count};
}
