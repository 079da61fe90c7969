// What Chromium makes of targets, as it was found in takes of recorder/pieces.

import assert from 'node:assert/strict';
import {test} from 'node:test';
import {Timeline, eventOf} from '../automation.js';
import {errorOfBegin, errorOfReach} from '../targets.js';

const QUANTUM = 128, NEVER = 2 ** 40;
const near = (found, wanted) => assert.ok(Math.abs(found - wanted) < 1e-7 + 1e-4 * Math.abs(wanted), `${found} in place of ${wanted}`);

// The timeline of a parameter that is `start`, of which each call has its method and arguments.
function timelineOf(start, calls, rate = 48000, now = 0) {
  const timeline = new Timeline(start), parameter = {timeline, recording: {rate, quantum: QUANTUM, now}};
  for (const [method, ...args] of calls) timeline.put(eventOf(parameter, method, args));
  return timeline;
}

// How far the first value of the last event is off.
const begin = (...words) => {
  const timeline = timelineOf(...words);
  return errorOfBegin(timeline, timeline.events.length - 1, QUANTUM);
};

test('behind a ramp whose end is by a rounding before a frame a target begins with the value of the frame before', () => {
  const note = time => [['setValueAtTime', 0, time], ['linearRampToValueAtTime', 0.4, time + 0.02], ['setTargetAtTime', 0.2, time + 0.02, 0.1]];
  near(begin(1, note(96000 / 48000 + 0.05)), 0.4 / 960); // (time + 0.02) * 48000 is 99359.99999999999
  assert.equal(begin(1, note(48000 / 48000 + 0.05)), 0); // and here 51360
  near(begin(1, note(2.049995)), 0.4 / 960 * 0.76);      // and 99359.76, of which 0.76 is left behind 99359
});

test('a first target at the beginning of a quantum is a frame early where its time is by a rounding behind it', () => {
  const note = (frame, now = frame) => [0, [['setTargetAtTime', 0.5, frame / 48000, 0.01]], 48000, now];
  near(begin(...note(48256)), -0.5 * Math.expm1(-1 / 480)); // 48256 / 48000 * 48000 is 48256.00000000001
  assert.equal(begin(...note(28928)), 0);
  near(begin(0, [['setTargetAtTime', 0.5, 0, 0.01]], 48000, 1280), -0.5 * Math.expm1(-1 / 480)); // one in the past is early, too
});

test('behind another target one begins with the value of the frame before, but at the beginning of a quantum', () => {
  const pair = second => [0, [['setTargetAtTime', 1, 0, 0.01], ['setTargetAtTime', 0, second / 48000, 0.01]]];
  near(begin(...pair(500)), Math.exp(-499 / 480) - Math.exp(-500 / 480));
  assert.equal(begin(...pair(512)), 0);
});

test('a target counts as reached at the first frame of a quantum where little is left', () => {
  const reach = (start, call, rate, last = NEVER) => errorOfReach(timelineOf(start, [call], rate), 0, QUANTUM, last);
  near(reach(0, ['setTargetAtTime', 0.5, 0.02, 0.01], 44100), 0.5 * Math.exp(-(5376 - 882) / 441)); // ten time constants
  near(reach(0.5, ['setTargetAtTime', 0, 7497 / 44100, 0.04], 44100), 0.5 * Math.exp(-(23936 - 7497) / 1764)); // less than e^-10
  near(reach(0.2, ['setTargetAtTime', 0.6, 154240 / 48000, 0.05], 48000), 0.4 * Math.exp(-(177280 - 154240) / 2400)); // and of 0.6
  assert.equal(reach(0, ['setTargetAtTime', 0.5, 0.02, 0.01], 44100, 5376), 0); // what comes next begins there
});
