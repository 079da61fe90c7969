// Loops: a loop through a delay is a quantum longer in Chromium than in the recommendation, at one connection of it.
//
// Nodes ask for what they hear, one after the other. One that is asked while it is being worked out gives what it gave in
// the quantum before. Which connection that is hangs on the node that is asked first. So each way to go through a loop is
// tried: where the loop is cut at these connections and the sound comes from a player instead, a quantum late, the
// browser has to render what the page rendered. With the option `loops` a delay is put there.

import {SAME, listenWell, loopsOf, widthOf} from './freezing.js';
import {steadyValue} from './graph.js';
import {Performance, apart} from './performing.js';
import {settings} from './settings.js';
import {nearestFixed} from './values.js';

const NEAR_ENOUGH = 2 ** -16;
const MOST_TRIED = 32;

const keyOf = ({from, to, param, output, input}) => [from, output, to, param, input].join(' ');

// The connections that lead back where a loop is gone through from a node, backwards.
function backEdges(graph, loop, root, isReversed) {
  const under = new Set(), done = new Set(), found = [];
  const visit = name => {
    under.add(name);
    const edges = graph.entering(name).filter(({from}) => loop.has(from));
    for (const edge of isReversed ? edges.reverse() : edges) {
      if (under.has(edge.from)) found.push(edge);
      else if (!done.has(edge.from)) visit(edge.from);
    }
    under.delete(name);
    done.add(name);
  };
  visit(root);
  return found;
}

// All sets of connections at which a loop may be a quantum longer.
function guessesOf(graph, loop) {
  const guesses = new Map(), exits = [...loop].filter(name => graph.leaving(name).some(({to}) => !loop.has(to)));
  for (const root of exits)
    for (const isReversed of [false, true]) {
      const edges = backEdges(graph, loop, root, isReversed);
      guesses.set(edges.map(keyOf).sort().join(), edges);
    }
  return [...guesses.values()].slice(0, MOST_TRIED);
}

// The connections at which a loop is longer in the page's rendering, or null where that is not found.
async function longerEdges(recording, graph, widths, loop) {
  const isParted = recording.log.some(({entry, disconnect}) => disconnect && loop.has(entry.name));
  const inner = [...loop].flatMap(name => graph.leaving(name).filter(({to}) => loop.has(to)));
  const taps = new Map(inner.map(({from, output}) => [`${from} ${output}`, {name: from, output, width: widthOf(widths, from, output)}]));
  const fits = [...taps.values()].every(({width}) => recording.channels + width <= 32);
  if (isParted || !fits) return null;
  const {tapped, distance} = await listenWell(recording, [...taps.values()], true);
  if (distance > SAME) return null;
  for (const edges of guessesOf(graph, loop)) {
    const cut = new Map(edges.map(edge => [keyOf(edge), tapped.get(taps.get(`${edge.from} ${edge.output}`))]));
    const {rendered} = await new Performance(recording, [], new Set(), cut).render();
    recording.work++;
    if (apart(rendered, recording.rendered) <= NEAR_ENOUGH) return edges;
  }
  return null;
}

// Puts a delay of a quantum into a connection.
function lengthen(recording, edge) {
  const name = recording.newName('loop'), quantum = nearestFixed(recording.quantum / recording.rate).whole;
  const creation = {op: 'createDelay', as: name, maxDelayTime: 2 * quantum, delayTime: quantum};
  recording.lose('loop-as-browser', creation);
  let isMade = false;
  recording.eachCall((call, list) => {
    const isIt = call.op.startsWith('connect') && call.from === edge.from && call.to === edge.to && (call.param || null) === edge.param &&
      (call.output || 0) === edge.output && (call.input || 0) === edge.input;
    if (!isIt) return;
    const into = {op: 'connect', from: call.from, to: name, ...(call.output ? {output: call.output} : {})};
    list.splice(list.indexOf(call), 0, ...(isMade ? [] : [creation]), into);
    Object.assign(call, {from: name});
    delete call.output;
    isMade = true;
  });
}

// Whether a delay is shorter than a quantum. In a loop it lasts a quantum in waplay, and what it is in Chromium.
function isShort(entry) {
  const {node: {delayTime}, recording: {rate, quantum}} = entry;
  return Math.round(Math.min(steadyValue(entry, 'delayTime', 0), delayTime.maxValue) * rate) < quantum;
}

// Makes the loops that stay live as long as the browser has them, where that is asked for, or tells of them.
export async function lowerLoops(recording, graph, widths, {heard, reasons}) {
  for (const names of loopsOf(graph)) {
    const delays = names.filter(name => graph.entries.get(name).kind === 'DelayNode');
    if (!delays.length || !names.every(name => heard.has(name) && !reasons.has(name))) continue;
    const isTried = settings.loops && !delays.some(name => isShort(graph.entries.get(name)));
    const edges = isTried ? await longerEdges(recording, graph, widths, new Set(names)) : null;
    if (edges) for (const edge of edges) lengthen(recording, edge);
    else recording.lose('loop-longer', graph.entries.get(delays[0]).creation);
  }
}
