// Targets: where Chromium makes something else of setTargetAtTime than the formula of the recommendation.
//
// It goes from each frame to the next one. So a target may begin with the value of the frame before, or be a frame early.
// And it looks at a target where that begins, and at the first frame of each quantum: where little is left of the way, it
// takes the target for reached.

import {targetValue} from './automation.js';
import {entryOfParameter} from './recording.js';

const NAMES = ['gain', 'offset']; // of parameters whose targets are rewritten, but for delays, which are heard to change
const LEAST_TOLD = 2 ** -16;
const LEFT = Math.exp(-10); // what is left of a target that counts as reached: a part of its value, or of 1 where that is 0
const TIME_CONSTANTS = 10;  // after which it counts as reached in any case

const isRamp = event => event.kind === 'ramp' || event.kind === 'exponential';

// A frame early: what begins in the past does, and a first event at the beginning of a quantum whose time is that frame's,
// while its product with the rate is by a rounding behind it.
function isEarly({place, exact, isOnFrame}, before, first, quantum) {
  return exact <= place - 1 || (!before && isOnFrame && exact > first && first % quantum === 0);
}

// Whether the value before a target is that of the frame before: behind a ramp or another target that leads to it.
function isBehind({exact}, before, first, quantum) {
  if (!before) return false;
  if (before.kind === 'target') return exact < first || (exact === first && first % quantum !== 0);
  return isRamp(before) && Math.ceil(before.place) === first && exact < first;
}

// How far the first value is from the formula's.
export function errorOfBegin(timeline, index, quantum) {
  const event = timeline.events[index], before = timeline.events[index - 1], first = Math.ceil(event.place);
  const startValue = timeline.startOfTarget(index);
  if (isEarly(event, before, first, quantum)) return Math.abs(event.value - startValue) * -Math.expm1(-1 / event.timeConstant);
  return isBehind(event, before, first, quantum) ? Math.abs(timeline.valueAt(first - 1, 0) - startValue) : 0;
}

// How far the value is from the target when it counts as reached, which is before the frame `last`.
export function errorOfReach(timeline, index, quantum, last) {
  const event = timeline.events[index], startValue = timeline.startOfTarget(index), first = Math.ceil(event.place);
  const leftAt = frame => Math.abs(targetValue(event, startValue, frame) - event.value);
  const isReached = frame => frame - event.exact > TIME_CONSTANTS * event.timeConstant ||
    leftAt(frame) < LEFT * (event.value === 0 ? 1 : Math.abs(targetValue(event, startValue, frame)));
  let frame = first;
  while (frame < last && !isReached(frame)) frame = (Math.floor(frame / quantum) + 1) * quantum;
  return frame < last ? leftAt(frame) : 0;
}

// Tells of the targets of a parameter that were rewritten.
function loseOfParameter(recording, {timeline}) {
  timeline.events.forEach((event, index) => {
    if (event.kind !== 'target' || !event.calls || !event.calls.length) return;
    const {quantum, length} = recording, last = Math.min(event.last, length);
    const error = Math.max(errorOfBegin(timeline, index, quantum), errorOfReach(timeline, index, quantum, last));
    if (error >= LEAST_TOLD) recording.lose('browser-target', event.calls[0], error);
  });
}

// Tells of all targets of a recording that is complete.
export function loseOfTargets(recording) {
  for (const {node} of recording.entries.values())
    for (const name of NAMES) {
      const parameter = node && entryOfParameter.get(node[name]);
      if (parameter) loseOfParameter(recording, parameter);
    }
}
