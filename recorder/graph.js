// Graph: the nodes of a recording, and all connections that were ever made between them.
//
// Connections count as if none was ever taken away.

import {native} from './native.js';
import {entryOfParameter} from './recording.js';
import {schedulePlace} from './values.js';

// Nodes that sound by themselves, as far as the calls show.
const SOUNDS_AT_ONCE = new Set(['AudioWorkletNode', 'ScriptProcessorNode', 'MediaElementAudioSourceNode',
  'MediaStreamAudioSourceNode', 'MediaStreamTrackAudioSourceNode']);

export class Graph {
  constructor(recording) {
    Object.assign(this, {recording, entries: recording.entries, edges: [], from: new Map(), into: new Map(), soundings: new Map()});
    recording.eachCall(call => {
      if (call.op !== 'connect' && call.op !== 'connectParam') return;
      if (!recording.outcomes.has(call) && this.entries.has(call.from) && this.entries.has(call.to)) this.add(call);
    });
  }

  add({from, to, param = null, output = 0, input = 0}) {
    const edge = {from, to, param, output, input};
    this.edges.push(edge);
    for (const [map, name] of [[this.from, from], [this.into, to]]) {
      if (!map.has(name)) map.set(name, []);
      map.get(name).push(edge);
    }
  }

  // The connections from a node, and those into it and its parameters.
  leaving(name) { return this.from.get(name) || []; }
  entering(name) { return this.into.get(name) || []; }

  // All that is reached from some nodes. `next(name)` gives the nodes after one.
  reached(names, next) {
    const seen = new Set(names), left = [...seen];
    while (left.length)
      for (const name of next(left.pop()))
        if (!seen.has(name)) {
          seen.add(name);
          left.push(name);
        }
    return seen;
  }

  // The nodes from which some nodes hear something, these among them.
  upstream(names, isThrough = () => true, isWay = () => true) {
    return this.reached(names, name => isThrough(name) ? this.entering(name).filter(isWay).map(edge => edge.from) : []);
  }

  downstream(names) {
    return this.reached(names, name => this.leaving(name).map(edge => edge.to));
  }

  // The frame at which a node may sound first by itself. Infinity where it does not.
  ownSounding(entry) {
    if (entry.startCall) return Math.ceil(schedulePlace(this.recording, entry.startTime));
    if (SOUNDS_AT_ONCE.has(entry.kind) || isBiased(entry)) return 0;
    return Infinity;
  }

  // The frame at which a node may hear or play something first.
  soundingOf(name) {
    if (!this.soundings.has(name)) {
      let first = Infinity;
      for (const found of this.upstream([name])) first = Math.min(first, this.ownSounding(this.entries.get(found)));
      this.soundings.set(name, first);
    }
    return this.soundings.get(name);
  }
}

// Whether a shaper makes something of silence.
function isBiased({kind, node}) {
  const curve = kind === 'WaveShaperNode' ? node.curve : null;
  if (!curve || !curve.length) return false;
  const middle = (curve.length - 1) / 2;
  return curve[Math.floor(middle)] + curve[Math.ceil(middle)] !== 0;
}

// The value that a parameter of a node keeps from where the node may sound first, or undefined where it moves.
export function steadyValue(entry, name, sounding) {
  const parameter = entryOfParameter.get(entry.node[name]);
  if (!entry.isSteady) return undefined;
  const isByQuantum = entry.node[name].automationRate === 'k-rate';
  const {quantum} = entry.recording, place = isByQuantum ? Math.floor(sounding / quantum) * quantum : sounding;
  return parameter ? parameter.timeline.steadyValue(place) : native.value.call(entry.node[name]);
}

// The values that parameters keep, by their names, or null where one of them moves.
export function steadyValues(entry, names, sounding) {
  const values = Object.fromEntries(names.map(name => [name, steadyValue(entry, name, sounding)]));
  return Object.values(values).includes(undefined) ? null : values;
}
