// Limits: what waplay refuses of contexts and scripts for their size.

import {LOSS_KINDS} from './losses.js';
import {isQuantum} from './quanta.js';
import {ONE, isGiven} from './values.js';

export const BUFFER_LIMIT = 2 ** 27;
export const NODE_LIMIT = 1024, CONNECTION_LIMIT = 8192;
const DELAY_LIMIT = 2 ** 22;
export const ASSET_LIMIT = 2 ** 26, SCRIPT_LIMIT = 2 ** 24;

// Gives whether waplay takes the context: else no call is done.
export function loseOfContext(recording) {
  const {channels, length, rate, quantum} = recording;
  const isFine = channels >= 1 && channels <= 32 && length >= 1 && length <= 2 ** 25 && channels * length <= 2 ** 26 &&
                 rate >= 8000 && rate <= 96000 && isQuantum(quantum);
  if (!isFine) recording.lose('context-limit');
  return isFine;
}

// Calls that waplay refuses for another reason: they make nothing, so nothing of them is counted.
function refusedCalls(recording) {
  const refused = new Set(recording.outcomes.keys());
  for (const {kind, call} of recording.losses) if (call && LOSS_KINDS[kind].feature) refused.add(call);
  return refused;
}

const isCreationOfNode = (recording, call) => call.op !== 'createPeriodicWave' && !recording.refusedNames.has(call.as);

// The connections that there are. They are counted as if none were taken away but by a plain disconnect of a whole
// node, so a script near the limit may be said to pass it.
class Connections {
  constructor() {
    this.count = 0;
    this.byNode = new Map();
  }

  add(call) {
    const key = [call.output || 0, call.to, call.input || 0, call.param].join(' ');
    if (!this.byNode.has(call.from)) this.byNode.set(call.from, new Set());
    const known = this.byNode.get(call.from);
    if (!known.has(key)) this.count++;
    known.add(key);
  }

  takeAll(name) {
    this.count -= (this.byNode.get(name) || new Set()).size;
    this.byNode.delete(name);
  }
}

function delayFrames(recording, {maxDelayTime}) {
  const longest = isGiven(maxDelayTime) ? maxDelayTime : ONE;
  return Math.max(recording.quantum, Math.round(longest * recording.rate / ONE));
}

// Goes through the calls and counts.
export function loseOfSizes(recording) {
  const connections = new Connections(), refused = refusedCalls(recording);
  let nodes = 1, samples = 0, delays = 0;
  recording.eachCall(call => {
    if (refused.has(call)) return;
    if (call.op === 'createBuffer') {
      samples += call.channels * call.length;
      if (samples > BUFFER_LIMIT) recording.lose('buffer-limit', call);
    } else if (call.as && isCreationOfNode(recording, call) && ++nodes > NODE_LIMIT) recording.lose('node-limit', call);
    if (call.op === 'createDelay') {
      delays += delayFrames(recording, call);
      if (delays > DELAY_LIMIT) recording.lose('delay-limit', call);
    }
    if (call.op === 'connect' || call.op === 'connectParam') {
      connections.add(call);
      if (connections.count > CONNECTION_LIMIT) recording.lose('connection-limit', call);
    } else if (call.op === 'disconnect' && call.to === undefined && call.output === undefined) connections.takeAll(call.from);
  });
}
