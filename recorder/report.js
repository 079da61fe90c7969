// Reports: one line for each kind of loss, worst first, and a verdict.

import {GRADES, LOSS_KINDS, gradeOf} from './losses.js';

const MOST_NUMBERS = 12; // of calls or nodes in a line

// The losses by kind, with the numbers of the calls. A loss of a call that was rewritten is none any more.
function lossesByKind(recording, numbers) {
  const byKind = new Map();
  for (const {kind, call, error, count} of recording.losses) {
    if (call && !numbers.has(call)) continue;
    if (!byKind.has(kind)) byKind.set(kind, {kind, ...LOSS_KINDS[kind], count: 0, error: 0, calls: new Set()});
    const sum = byKind.get(kind);
    sum.count += count;
    sum.error = Math.max(sum.error, error);
    if (call) sum.calls.add(numbers.get(call));
  }
  const losses = [...byKind.values()].map(loss => ({...loss, grade: gradeOf(loss.kind, loss.error)}));
  return losses.sort((one, other) => GRADES.indexOf(one.grade) - GRADES.indexOf(other.grade) || other.count - one.count);
}

// Errors of times are in frames, all others in values where 1 is full scale.
const ERROR_UNITS = {
  'time-next-frame': 'frames', 'time-near-frame': 'frames', 'time-rounded': 'frames', 'delay-fraction': 'frames',
  'timer-late': 'seconds',
};

function lossLine({kind, grade, count, error, calls, says}) {
  const all = [...calls].sort((one, other) => one - other), shown = all.slice(0, MOST_NUMBERS);
  const parts = [`count ${count}`];
  if (error > 0) parts.push(`greatest error ${error.toPrecision(3)}${ERROR_UNITS[kind] ? ' ' + ERROR_UNITS[kind] : ''}`);
  if (all.length) parts.push(`calls ${shown.join(' ')}${all.length > shown.length ? ` and ${all.length - shown.length} more` : ''}`);
  return `${grade} ${kind}: ${parts.join(', ')}: ${says}`;
}

function verdictOf(losses) {
  const worst = GRADES.find(grade => losses.some(loss => loss.grade === grade));
  return {refused: 'refused in part', exact: 'whole'}[worst] || worst || 'whole';
}

const articleOf = kind => /^\d/.test(kind) ? '' : /^[AEIO]/.test(kind) ? 'an ' : 'a ';

// The nodes that are frozen, those of one kind and for one reason in a line, and how much is not.
function frozenLines({frozen, live}) {
  if (!frozen.length) return [];
  const groups = Map.groupBy(frozen, ({kind, why}) => `${articleOf(kind)}${kind}: ${why}`);
  const namesOf = nodes => nodes.slice(0, MOST_NUMBERS).map(({name}) => name).join(' ') +
    (nodes.length > MOST_NUMBERS ? ` and ${nodes.length - MOST_NUMBERS} more` : '');
  return [...[...groups].map(([words, nodes]) => `frozen: ${namesOf(nodes)}, ${nodes.length > 1 ? 'each ' : ''}${words}`),
          `live: ${(100 * live).toFixed(live > 0.99 || live < 0.01 ? 2 : 0)} % of the sound comes through none of what is frozen`];
}

// The report of a recording whose script was written: {lines, verdict, grades}.
export function writeReport(recording, {numbers, count, assets}) {
  const losses = lossesByKind(recording, numbers);
  const {number, channels, length, rate} = recording;
  const head = `context ${number}: ${channels} channels, ${length} frames, ${rate} frames a second; ` +
               `${count} calls, ${assets.length} assets`;
  return {lines: [head, ...losses.map(lossLine), ...frozenLines(recording)], verdict: verdictOf(losses),
          frozen: recording.frozen, live: recording.live, calls: count,
          kinds: losses.map(({kind, grade, count, error}) => ({kind, grade, count, error})), grades: [...new Set(losses.map(({grade}) => grade))]};
}
