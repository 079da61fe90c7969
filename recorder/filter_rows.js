// Filter rows: biquads and IIR filters become rows of IIR filters of order 2.
//
// What a filter puts out is rounded to 2^-24 before it is fed back, and small coefficients have few bits. So a row
// runs louder inside, as far as its levels leave room, and a gain behind it takes that back.

import {biquadCoefficients, coefficientError, putCoefficients} from './filters.js';
import {steadyValues} from './graph.js';
import {levelsOf} from './levels.js';
import {biquadErrorOfBrowser, feedbackError, filterErrorOfBrowser} from './responses.js';
import {rowOf, sectionsOf} from './sections.js';
import {ONE, fixedValue} from './values.js';

const MOST_GUARD = 32;
const ROOM = 120;              // the loudest that is let be inside; waplay saturates at 128
const ENOUGH = ROOM / 8;       // a level that leaves room for a guard of 8
const LEAST_TOLD = 2 ** -20;   // errors of what is fed back below this are not told
const LEAST_OF_BROWSER = 2 ** -16; // and of what the browser feeds back

// The values that a biquad's parameters keep from where it hears something first, or null where they move.
export function steadyBiquad(entry, graph) {
  const sounding = graph.soundingOf(entry.name);
  if ((entry.attributesAt || 0) > sounding) return null;
  return steadyValues(entry, ['frequency', 'Q', 'gain', 'detune'], sounding === Infinity ? 0 : sounding);
}

// A biquad with steady parameters: {gain}, or {row, gain, kind, page}, where `page` has the coefficients as they were.
function planOfBiquad(entry, rate, graph) {
  const values = steadyBiquad(entry, graph);
  if (!values) return null;
  const found = biquadCoefficients({type: entry.node.type, ...values}, rate);
  if (found.gain !== undefined) return found;
  return {...rowOf([found]), kind: 'lowered-biquad', page: found};
}

// An IIR filter: {row, gain, kind, page}. One that is of order 2 at most is none of the lowered kinds. Null where it is
// no filter.
function planOfFilter({coefficients: {feedforward, feedback}}) {
  const found = sectionsOf(feedforward, feedback);
  const kind = Math.max(feedforward.length, feedback.length) > 3 ? 'lowered-sections' : null;
  return found && {...found, kind, page: {feedforward, feedback}};
}

// How much louder a row may be inside: a power of two.
function guardOf(level) {
  let guard = MOST_GUARD;
  while (guard > 1 && level * guard > ROOM) guard /= 2;
  return guard;
}

// A gain as a power of two and what is left of it, which is at most 1 where there is room.
function splitGain(gain) {
  const power = 2 ** Math.min(6, Math.max(-12, Math.ceil(Math.log2(Math.abs(gain)))));
  return {power, left: gain / power};
}

const largestOf = terms => Math.max(...terms.map(Math.abs));

// The calls of a row: a gain in front of it where the first numerator has no room for the guard, the sections, and a
// gain behind it. Gives {calls, head}, and keeps the row for `loseOfFilters`.
function rowCalls(recording, entry, {row, gain, kind}, guard) {
  const {power, left} = splitGain(gain), trailing = power / guard, lead = largestOf(row[0].feedforward) * guard > 2 ? guard : 1;
  const last = row.length - 1, nameOf = place => trailing === 1 && place === last ? entry.name : `${entry.name}_${place + 1}`;
  const calls = [], kept = [];
  if (lead > 1) calls.push({op: 'createGain', as: `${entry.name}_0`, gain: lead * ONE});
  row.forEach(({feedforward, feedback}, place) => {
    const factor = (place === 0 ? guard / lead : 1) * (place === last ? left : 1);
    const call = {op: 'createIIRFilter', as: nameOf(place)};
    kept.push(putCoefficients(recording, call, feedforward.map(term => term * factor), feedback));
    if (kind) recording.lose(kind, call);
    calls.push(call);
  });
  if (trailing !== 1) {
    calls.push({op: 'createGain', as: entry.name, gain: trailing * ONE});
    if (guard > 1) recording.lose('guarded-filter', calls[calls.length - 1]);
  }
  const names = calls.map(call => call.as);
  for (let place = 1; place < names.length; place++) calls.push({op: 'connect', from: names[place - 1], to: names[place]});
  recording.rows.push({sections: kept, lead, trailing});
  return {calls, head: names[0]};
}

function replaceByGain(recording, entry, gain, replacements) {
  const call = {op: 'createGain', as: entry.name};
  call.gain = fixedValue(recording, gain, call);
  recording.lose('lowered-biquad', call);
  replacements.put(entry, [call]);
}

// Tells where Chromium is less exact in a filter than what comes in its place.
function loseOfBrowser(recording, plans) {
  const known = new Map();
  for (const {row, gain, kind, page} of plans) {
    if (!kind) continue;
    const key = JSON.stringify([kind, page.feedforward, page.feedback]);
    if (!known.has(key))
      known.set(key, kind === 'lowered-biquad' ? biquadErrorOfBrowser(page) : filterErrorOfBrowser(page, {row, gain}));
    if (known.get(key) > LEAST_OF_BROWSER) recording.lose('browser-rounded', null, known.get(key));
  }
}

// Lowers the filters of a recording that is complete.
export async function lowerFilters(recording, replacements, graph) {
  const plans = new Map();
  for (const entry of recording.filters) {
    const plan = entry.kind === 'IIRFilterNode' ? planOfFilter(entry) : planOfBiquad(entry, recording.rate, graph);
    if (plan && plan.row) plans.set(entry, plan);
    else if (plan) replaceByGain(recording, entry, plan.gain, replacements);
  }
  if (!plans.size) return;
  loseOfBrowser(recording, plans.values());
  const levels = await levelsOf(recording, new Map([...plans].map(([{name}, plan]) => [name, plan])), ENOUGH);
  for (const [entry, plan] of plans) {
    const {level, isTooLoud} = levels.get(entry.name) || {level: ROOM, isTooLoud: false}, guard = guardOf(level);
    if (plan.kind || guard > 1) {
      const {calls, head} = rowCalls(recording, entry, plan, guard);
      replacements.put(entry, calls, head);
      if (isTooLoud) recording.lose('level-range', calls.find(call => call.op === 'createIIRFilter'));
    } else if (isTooLoud) recording.lose('level-range', entry.creation);
    recording.work++;
  }
}

// What rounding does to a row of filters: {error, isLost, fedBack}.
function errorsOf({sections, lead, trailing}) {
  const factor = lead * trailing, {error, isLost} = coefficientError(sections);
  return {error: error * factor, isLost, fedBack: feedbackError(sections, 1 / ONE) * trailing};
}

// Tells what rounding does to the filters that the script has.
export function loseOfFilters(recording) {
  const inScript = new Set(), known = new Map();
  recording.eachCall(call => inScript.add(call));
  for (const row of recording.rows) {
    const call = row.sections[row.sections.length - 1].call;
    if (!inScript.has(call) || recording.outcomes.has(call)) continue;
    const key = JSON.stringify([row.lead, row.trailing, row.sections.map(({feedforward, feedback}) => [feedforward, feedback])]);
    if (!known.has(key)) known.set(key, errorsOf(row));
    const {error, isLost, fedBack} = known.get(key);
    if (isLost) recording.lose('filter-lost', call);
    else if (row.sections.some(({isRounded}) => isRounded)) recording.lose('coefficients-rounded', call, error);
    if (fedBack > LEAST_TOLD) recording.lose('feedback-rounded', call, fedBack);
  }
}
