// Voices: where a piece is too long for a script, what its voices put out is frozen, into one buffer for each place that
// they lead to.
//
// A voice is what a few sources and the nodes behind them make, one of which ends. What many of them lead to is the trunk
// of the piece, and stays live.

import {weightOfConvolver} from './convolvers.js';
import {endOfSource} from './endings.js';
import {BUFFER_LIMIT, CONNECTION_LIMIT, NODE_LIMIT, SCRIPT_LIMIT} from './limits.js';
import {framePlace} from './values.js';

const MOST_SOURCES = 16; // of a voice
const ROOM = 0.9;        // how much of a limit may be used by what is estimated
const MANY = null;       // more sources than a voice has

// The nodes that a node of the page becomes, at most.
function weightOf(entry) {
  const {kind, creation} = entry;
  if (kind === 'ConvolverNode') return weightOfConvolver(entry);
  if (kind === 'BiquadFilterNode') return 3;
  if (kind === 'IIRFilterNode') return 2 + Math.ceil(Math.max(creation.feedforward.length, creation.feedback.length) / 2);
  return kind === 'StereoPannerNode' || kind === 'PannerNode' ? 5 : 1;
}

// How many samples a source needs at most, if its sound is kept.
function samplesOf(recording, source) {
  if (!source.startCall) return 0;
  const first = Math.floor(framePlace(recording, source.startTime)), end = endOfSource(source);
  const last = Math.min(recording.length, end === undefined ? Infinity : Math.ceil(framePlace(recording, end)));
  return Math.max(0, last - first) * (source.channels || 1);
}

// Which limit a script would pass in which all that is heard stays live, or null.
export function passedLimit(recording, graph, {heard}) {
  const of = {nodes: 0, samples: 0, bytes: 0, connections: 0};
  for (const name of heard) of.nodes += weightOf(graph.entries.get(name));
  for (const source of recording.sources) if (heard.has(source.name)) of.samples += samplesOf(recording, source);
  recording.eachCall(call => {
    if (!heard.has(call.as ?? call.node ?? call.from)) return;
    of.bytes += JSON.stringify(call).length + 4;
    if (call.op === 'connect' || call.op === 'connectParam') of.connections++;
  });
  if (of.nodes > ROOM * NODE_LIMIT) return `${NODE_LIMIT} nodes`;
  if (of.bytes > ROOM * SCRIPT_LIMIT) return `${SCRIPT_LIMIT} bytes`;
  if (of.samples > ROOM * BUFFER_LIMIT) return `${BUFFER_LIMIT} samples`;
  return of.connections > ROOM * CONNECTION_LIMIT ? `${CONNECTION_LIMIT} connections` : null;
}

// Of each node the sources that it hears, as a set of names, or MANY.
function sourcesOf(graph, most) {
  const found = new Map(), left = [];
  const put = (name, sources) => {
    const known = found.get(name);
    if (known === MANY) return;
    const all = sources === MANY ? MANY : new Set([...(known || []), ...sources]);
    if (all !== MANY && known && all.size === known.size) return;
    found.set(name, all === MANY || all.size > most ? MANY : all);
    left.push(name);
  };
  for (const [name, {startCall}] of graph.entries) if (startCall) put(name, [name]);
  while (left.length) {
    const name = left.pop();
    for (const {to} of graph.leaving(name)) put(to, found.get(name));
  }
  return found;
}

// The connections from voices into the trunk, by where they lead: [{to, param, input, from, outputs}, ..].
function placesOf(graph, most) {
  const sources = sourcesOf(graph, most), places = new Map();
  const isTrunk = name => name === 'destination' || sources.get(name) === MANY;
  const hasEnd = name => endOfSource(graph.entries.get(name)) !== undefined;
  for (const edge of graph.edges) {
    if (isTrunk(edge.from) || !isTrunk(edge.to) || ![...(sources.get(edge.from) || [])].some(hasEnd)) continue;
    const key = `${edge.to} ${edge.param} ${edge.input}`;
    if (!places.has(key)) places.set(key, {to: edge.to, param: edge.param, input: edge.input, from: new Set(), edges: []});
    places.get(key).from.add(edge.from);
    places.get(key).edges.push(edge);
  }
  return [...places.values()];
}

// A tap for each place, see performing.js.
function tapOf(graph, widths, {to, param, input, from, edges}) {
  const {channelInterpretation} = graph.entries.get(to).node;
  const width = param ? 1 : edges.reduce((most, edge) => Math.max(most, ...widths.of(edge.from, edge.output)), 1);
  return {to, param, input, from, edges, width, interpretation: param ? 'speakers' : channelInterpretation};
}

// The taps of the voices of a piece. Where there are too many places to keep the sound of each, all that is heard is
// taken together.
export function voicesOf(recording, graph, widths) {
  for (const most of [MOST_SOURCES, Infinity]) {
    const taps = placesOf(graph, most).map(place => tapOf(graph, widths, place));
    const samples = taps.reduce((sum, {width}) => sum + width * recording.length, 0);
    if (samples <= ROOM * BUFFER_LIMIT && taps.every(({width}) => recording.channels + width <= 32)) return taps;
  }
  return [];
}
