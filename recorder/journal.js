// Journals: what a page does to nodes, to be done again to copies of them at the same frames.
//
// Each node has a journal of its own, for copies of sources that are rendered alone, see baking.js. The log of a recording
// has the same of all nodes in order, and their connections, for a copy of the whole, see performing.js.

import {settings} from './settings.js';

// Notes what was done. `repeat` does the same to a copy; `again` to one that is a part of the whole.
export function journal(entry, repeat, again = repeat) {
  if (!entry || !settings.lower) return;
  entry.journal.push({frame: entry.recording.now, repeat});
  note(entry, {repeat: again});
}

// Notes a step of a node: {isMade}, {repeat}, or {connect} and {disconnect} with {to, param, output, input}.
export function note(entry, step) {
  if (entry && settings.lower) entry.recording.log.push({frame: entry.recording.now, entry, ...step});
}
