// A recording: what is kept of one context while its page runs.
//
// A call is an object as the script will hold it ({op, ...}). Calls stand in lists: the main list, and the
// `then` list of each suspension and of startRendering. `current` is the list that the page's next call
// belongs to. Losses and outcomes hang on the call objects, so a call that is rewritten takes them with it.

import {native} from './native.js';

export const recordings = [];

// What the recorder knows about the page's objects.
export const recordingOfContext = new WeakMap();
export const entryOfNode = new WeakMap();       // node -> {recording, name, kind, list, ...}
export const entryOfParameter = new WeakMap();  // AudioParam -> {recording, node (the node's entry), name, ...}

export class Recording {
  constructor({channels, length, rate, quantum}) {
    Object.assign(this, {channels, length, rate, quantum});
    this.number = recordings.push(this);
    this.context = null;
    this.main = [];
    this.current = this.main;
    this.own = [];             // suspensions that the recorder asked for, which are in no list of another one
    this.start = null;        // the accepted startRendering
    this.phase = 'before';    // before, rendering, suspended, complete
    this.sameTurn = false;    // startRendering or resume was called in this turn of the page's event loop
    this.now = 0;             // the frame of the suspension at which the page is
    this.counts = {};
    this.losses = [];
    this.outcomes = new Map(); // call -> name of the exception, for calls that were refused by the browser
    this.rendered = null;      // one Float32Array for each channel
    this.isRealTime = false;
    this.isAskingItself = false; // a suspension is asked for by the recorder, see timers.js
    this.written = {};         // its script and report, see start.js
    this.refusedNames = new Set(); // names of nodes of kinds that waplay leaves out
    this.sources = [];         // entries of nodes that baking may replace
    this.filters = [];
    this.rows = [];            // of filters, with the coefficients that the page gave, see filter_rows.js
    this.work = 0;             // grows while this is finished
    this.analysers = [];
    this.panners = [];
    this.convolvers = [];      // entries of those that are not written yet, see convolvers.js
    this.entries = new Map();  // name -> the entry of a node
    this.listener = null;      // the entry of the listener
    this.frozen = [];          // {name, kind, why} of nodes that are frozen, see freezing.js
    this.live = 1;             // how much of the sound comes through none of them
    this.log = [];             // all that was done to nodes, in order, see journal.js
    this.versions = [];        // versions of buffers, see buffers.js
    this.acquired = new Map(); // AudioBuffer -> the version that a source acquired last
  }

  newName(prefix) {
    this.counts[prefix] = (this.counts[prefix] || 0) + 1;
    return prefix + this.counts[prefix];
  }

  // Notes a loss. `count` is how many numbers of the call it is about. Of a node that waplay leaves out, the
  // creation is the loss, and what is called on it later is none of its own.
  lose(kind, call = null, error = 0, count = 1) {
    if (this.isAskingItself || (call && this.refusedNames.has(call.node))) return;
    this.losses.push({kind, call, error, count});
  }

  // Adds calls to the current list. The exception is that of the page's call, which is the last of them.
  emit(calls, exception) {
    this.current.push(...calls);
    const last = calls[calls.length - 1];
    if (exception && last) this.outcomes.set(last, exception.name);
    if (this.phase === 'rendering' && !this.sameTurn)
      for (const call of calls) this.lose('call-while-rendering', call);
    if (this.phase === 'complete' && this.isRealTime)
      for (const call of calls) this.lose('call-after-end', call);
  }

  // A TypeError of argument checks has no counterpart in a script, and neither has what an argument of the page throws:
  // the call changed nothing and is left out.
  leavesOut(exception) {
    if (!exception || exception instanceof DOMException || exception.name === 'RangeError') return false;
    this.lose('call-left-out');
    return true;
  }

  // Rendering starts with this call.
  begin(call) {
    this.emit([call]);
    this.start = call;
  }

  // Calls that follow in the same turn as startRendering or resume came before rendering could go on.
  beginTurn() {
    this.sameTurn = true;
    native.setTimeout(() => { this.sameTurn = false; }, 0);
  }

  // Every call of the script, with the list that it stands in.
  eachCall(visit, list = this.main) {
    for (const call of [...list]) {
      visit(call, list);
      if (call.then) this.eachCall(visit, call.then);
    }
    if (list === this.main) this.eachCall(visit, this.own);
  }

  // Takes away the calls that `isUnwanted` names.
  removeCalls(isUnwanted, list = this.main) {
    let kept = 0;
    for (const call of list) if (!isUnwanted(call)) list[kept++] = call;
    list.length = kept;
    for (const call of list) if (call.then) this.removeCalls(isUnwanted, call.then);
    if (list === this.main) this.removeCalls(isUnwanted, this.own);
  }
}
