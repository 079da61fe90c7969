// Timelines of parameters, by the formulas of the recommendation.

import assert from 'node:assert/strict';
import {test} from 'node:test';
import {Timeline, eventOf} from '../automation.js';

const near = (found, wanted) => assert.ok(Math.abs(found - wanted) < 1e-9, `${found} in place of ${wanted}`);

function timelineOf(...events) {
  const timeline = new Timeline(0.5);
  for (const event of events) timeline.put(event);
  return timeline;
}

test('a ramp leads from the event before it', () => {
  const timeline = timelineOf({kind: 'set', place: 100, value: 1}, {kind: 'ramp', place: 200, value: 3});
  near(timeline.valueAt(50, 0), 0.5);
  near(timeline.valueAt(150, 0), 2);
  near(timeline.valueAt(300, 0), 3);
});

test('an exponential ramp is a power', () => {
  const timeline = timelineOf({kind: 'set', place: 0, value: 1}, {kind: 'exponential', place: 100, value: 16});
  near(timeline.valueAt(25, 0), 2);
  near(timeline.valueAt(75, 0), 8);
});

test('a target is neared by its time constant', () => {
  const timeline = timelineOf({kind: 'set', place: 0, value: 1}, {kind: 'target', place: 10, value: 0, timeConstant: 20});
  near(timeline.valueAt(30, 0), Math.exp(-1));
});

test('a curve goes through its points and holds the last one', () => {
  const timeline = timelineOf({kind: 'curve', place: 10, duration: 20, values: [0, 1, 0.5]});
  near(timeline.valueAt(15, 0), 0.5);
  near(timeline.valueAt(20, 0), 1);
  near(timeline.valueAt(99, 0), 0.5);
});

test('a cancel takes away what is not over, and a hold keeps what was reached', () => {
  const ramp = [{kind: 'set', place: 0, value: 0}, {kind: 'ramp', place: 100, value: 1}];
  const cancelled = timelineOf(...ramp), held = timelineOf(...ramp);
  cancelled.cancel(50);
  near(cancelled.valueAt(80, 0), 0);
  held.hold(50, 0);
  near(held.valueAt(80, 0), 0.5);
});

test('a value is steady from where nothing changes it any more', () => {
  const ramp = timelineOf({kind: 'set', place: 0, value: 1}, {kind: 'ramp', place: 100, value: 3});
  assert.equal(ramp.steadyValue(50), undefined);
  assert.equal(ramp.steadyValue(100), 3);
  assert.equal(timelineOf().steadyValue(0), 0.5);
  assert.equal(timelineOf({kind: 'set', place: 10, value: 0.5}).steadyValue(0), 0.5);
  assert.equal(timelineOf({kind: 'target', place: 10, value: 0, timeConstant: 5}).steadyValue(100), undefined);
  assert.equal(timelineOf({kind: 'curve', place: 10, duration: 20, values: [0, 1, 0.25]}).steadyValue(30), 0.25);
});

const parameterOf = (timeline, now = 0) => ({timeline, recording: {rate: 48000, quantum: 128, now}});
const set = (value, seconds, timeline = timelineOf()) => eventOf(parameterOf(timeline), 'setValueAtTime', [value, seconds]).place;

test('a jump at a time that is by a rounding behind a frame stays behind it', () => {
  assert.equal(0.07 * 48000 > 3360, true);
  assert.equal(set(1, 0.07), 0.07 * 48000);
  assert.equal(set(0.5, 0.07), 3360);                       // no jump
  assert.equal(set(1, 0.09 - 0.02), 3360);                  // before the frame
  assert.equal(set(1, 896 / 48000), 896);                   // a first event at the beginning of a quantum
  assert.equal(set(1, 896 / 48000, timelineOf({kind: 'set', place: 0, value: 0.5})), 896 / 48000 * 48000);
});

test('other events stay where a jump stays', () => {
  const timeline = timelineOf({kind: 'set', place: 0.07 * 48000, value: 1});
  assert.equal(eventOf(parameterOf(timeline), 'setTargetAtTime', [0, 0.07, 1]).place, 0.07 * 48000);
  assert.equal(eventOf(parameterOf(timeline), 'cancelScheduledValues', [0.07]).place, 0.07 * 48000);
  assert.equal(eventOf(parameterOf(timelineOf()), 'cancelScheduledValues', [0.07]).place, 3360);
});
