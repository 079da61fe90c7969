// Baking: sources that a script has not, or has only in whole frames, become buffers, but with the option `plain`.
//
// Once rendering is over the browser renders copies of them, of each from its start to its stop. Many copies
// share a rendering: each has channels of its own, and sources that do not sound at one time may have the same
// ones. What the page did to a source at a suspension or a timer is done to its copy at the same frame.

import {contentOf, gatesOf} from './buffers.js';
import {endOfSource} from './endings.js';
import {BUFFER_LIMIT} from './limits.js';
import {native} from './native.js';
import {contextLike} from './quanta.js';
import {framePlace, loseOfList, nearestFixedList} from './values.js';

// Losses of a buffer source's calls that a baked one has not.
const BAKED_LOSSES = ['time-rounded', 'playback-rate', 'playback-rate-automation', 'detune', 'resampling'];

const MOST_CHANNELS = 32, MOST_SAMPLES = 2 ** 26; // of one rendering
const GAP = 256; // frames between sources of one channel

// The names of sources that have such a loss.
function namesToBake(recording) {
  const names = new Set();
  for (const {kind, call} of recording.losses)
    if (call && BAKED_LOSSES.includes(kind)) names.add(call.as === undefined ? call.node : call.as);
  return names;
}

// Where a source begins and ends, within the context. What is rendered goes a little further, to be sure.
function framesOf(recording, source) {
  const known = endOfSource(source), seconds = known === undefined ? source.stopTime : known;
  const first = Math.min(recording.length, Math.floor(framePlace(recording, source.startTime)));
  const last = seconds === undefined ? recording.length : Math.ceil(framePlace(recording, seconds));
  return {first, last: Math.max(first, last), end: Math.min(recording.length, Math.max(first, last) + recording.quantum)};
}

// The sources that are baked: {source, first, last, end, channels, gates}. The channels are those of the copy, of which the
// last one may be a gate, see buffers.js. Sizes are looked at first: what has no room in the buffers of a script is not
// baked.
function planOf(recording) {
  const names = namesToBake(recording), parts = [];
  let samples = 0;
  for (const source of recording.sources) {
    if (!source.isBakeable || (source.kind !== 'OscillatorNode' && !names.has(source.name))) continue;
    const count = source.kind === 'OscillatorNode' ? 1 : source.channels || 1;
    const part = {source, first: 0, last: 0, end: 0, channels: count + gatesOf(count), gates: gatesOf(count)};
    if (source.startCall) Object.assign(part, framesOf(recording, source));
    const size = count * (part.end - part.first);
    if (samples + size > BUFFER_LIMIT) {
      recording.lose('buffer-limit', source.creation);
      continue;
    }
    samples += size;
    parts.push(part);
  }
  return parts;
}

// Gives each part a track, which is a row of channels, and puts the tracks into as few renderings as there is room
// for: [[track, ..], ..]. A track is {channels, end, parts}, and its parts do not overlap.
function renderingsOf(parts) {
  const tracks = [];
  for (const part of [...parts].sort((one, other) => one.first - other.first)) {
    let track = tracks.find(candidate => candidate.channels === part.channels && candidate.end + GAP <= part.first);
    if (!track) tracks.push(track = {channels: part.channels, end: 0, parts: []});
    track.parts.push(part);
    track.end = part.end;
  }
  const renderings = [];
  let channels = Infinity, longest = 0;
  for (const track of tracks) {
    channels += track.channels;
    longest = Math.max(longest, track.end);
    if (channels > MOST_CHANNELS || channels * longest > MOST_SAMPLES) {
      renderings.push([]);
      channels = track.channels;
      longest = track.end;
    }
    renderings[renderings.length - 1].push(track);
  }
  return renderings;
}

// Makes the copy of a source, and connects it to the channels of its track.
function copyOf({source, channels}, context, merger, place) {
  const copy = new native[source.kind](context, source.options); // the journal has the content of its buffer
  if (channels === 1) copy.connect(merger, 0, place);
  else {
    const splitter = context.createChannelSplitter(channels);
    copy.connect(splitter);
    for (let channel = 0; channel < channels; channel++) splitter.connect(merger, channel, place + channel);
  }
  return copy;
}

// What is to be done at which frame: the copies are made, and the page's calls are done to them.
function actionsOf(tracks, context, merger) {
  const actions = new Map();
  const at = (frame, action) => {
    if (!actions.has(frame)) actions.set(frame, []);
    actions.get(frame).push(action);
  };
  let place = 0;
  for (const track of tracks) {
    for (const part of track.parts) {
      const first = place;
      let copy;
      at(part.source.bornAt, () => { copy = copyOf(part, context, merger, first); });
      for (const {frame, repeat} of part.source.journal) if (frame < part.end) at(frame, () => repeat(copy));
    }
    place += track.channels;
  }
  return actions;
}

// Renders the parts of some tracks side by side, and gives the channels.
async function render(recording, tracks) {
  const channels = tracks.reduce((sum, track) => sum + track.channels, 0);
  const length = Math.max(...tracks.map(track => track.end));
  const context = contextLike(recording, channels, length);
  context.destination.channelInterpretation = 'discrete';
  const merger = context.createChannelMerger(channels);
  merger.connect(context.destination);
  const faults = [];
  const doAll = actions => {
    try {
      for (const action of actions) action();
    } catch (fault) {
      faults.push(fault);
    }
  };
  for (const [frame, actions] of actionsOf(tracks, context, merger)) {
    if (frame === 0) doAll(actions);
    else if (frame < length) context.suspend(frame / recording.rate).then(() => {
      doAll(actions);
      context.resume();
    }, fault => { faults.push(fault); });
  }
  const rendered = contentOf(await context.startRendering());
  if (faults.length) throw faults[0];
  return rendered;
}

// How many of its samples a source needs. What is silent at the end needs none, but for the number of channels, which is
// heard up to the source's end: there the gate ends, too.
function leastLength({first, last, gates}, channels) {
  if (gates) return channels[channels.length - 1].findLastIndex(sample => sample !== 0) + 1;
  return channels.length > 1 ? Math.min(last - first, channels[0].length) : 0;
}

// The calls that come in the place of a source: a buffer of these samples that plays from its first frame on.
function callsOf(recording, part, channels) {
  const {source, first} = part, creation = {op: 'createBufferSource', as: source.name};
  const lists = channels.slice(0, channels.length - part.gates).map(nearestFixedList);
  const length = Math.max(leastLength(part, channels), ...lists.map(({wholes}) => wholes.findLastIndex(sample => sample !== 0) + 1));
  recording.lose('baked-source', creation);
  if (length === 0) return [creation];
  const call = {op: 'createBuffer', as: recording.newName('baked'), channels: lists.length, length, rate: recording.rate};
  recording.versions.push({name: call.as, call, samples: lists.map(({wholes}) => wholes.slice(0, length))});
  for (const list of lists) loseOfList(recording, list, call);
  creation.buffer = call.as;
  return [call, creation, {op: 'start', node: source.name, when: first}];
}

// A source that is never started is never heard.
function callsOfUnstarted(recording, source) {
  const call = {op: 'createConstantSource', as: source.name};
  recording.lose('baked-source', call);
  return [call];
}

// Bakes what can be baked of a recording that is complete.
export async function bakeSources(recording, replacements) {
  const parts = planOf(recording);
  for (const {source} of parts) if (!source.startCall) replacements.put(source, callsOfUnstarted(recording, source));
  for (const tracks of renderingsOf(parts.filter(({source}) => source.startCall))) {
    const rendered = await render(recording, tracks);
    let place = 0;
    for (const track of tracks) {
      for (const part of track.parts) {
        const channels = rendered.slice(place, place + track.channels).map(channel => channel.subarray(part.first, part.end));
        replacements.put(part.source, callsOf(recording, part, channels));
      }
      place += track.channels;
    }
    recording.work++;
  }
}
