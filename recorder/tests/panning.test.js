// Gains of panners, worked out by hand from the formulas of the recommendation.

import assert from 'node:assert/strict';
import {test} from 'node:test';
import {azimuthGains, azimuthOf, coneGain, distanceGain, stereoGains} from '../panning.js';

const near = (found, wanted) => assert.ok(Math.abs(found - wanted) < 1e-12, `${found} in place of ${wanted}`);
const HALF = Math.SQRT1_2;

function nearGains(found, left, right, isLeft) {
  near(found.left, left);
  near(found.right, right);
  assert.equal(found.isLeft, isLeft);
}

test('one channel is parted by equal power', () => {
  nearGains(stereoGains(-1, false), 1, 0, true);
  nearGains(stereoGains(0, false), HALF, HALF, true);
  nearGains(stereoGains(1, false), 0, 1, false);
  nearGains(stereoGains(1 / 3, false), 0.5, Math.sqrt(3) / 2, false);
});

test('of two channels the one that is turned away from comes over', () => {
  nearGains(stereoGains(-1, true), 1, 0, true);
  nearGains(stereoGains(0, true), 0, 1, true);
  nearGains(stereoGains(-0.5, true), HALF, HALF, true);
  nearGains(stereoGains(0.5, true), HALF, HALF, false);
});

test('a pan beyond its range is at its end', () => nearGains(stereoGains(-7, false), 1, 0, true));

const LISTENER = {position: [0, 0, 0], forward: [0, 0, -1], up: [0, 1, 0]};

test('azimuths go round the listener', () => {
  near(azimuthOf([0, 0, -2], LISTENER), 0);
  near(azimuthOf([3, 0, 0], LISTENER), 90);
  near(azimuthOf([-3, 0, 0], LISTENER), -90);
  near(azimuthOf([1, 0, 1], LISTENER), 135);
  near(azimuthOf([-1, 5, -1], LISTENER), -45);
  near(azimuthOf([0, 0, 0], LISTENER), 0);
  near(azimuthOf([5, 0, 0], {position: [2, 0, 0], forward: [1, 0, 0], up: [0, 1, 0]}), 0);
});

test('what is behind is heard as its mirror image in front', () => {
  nearGains(azimuthGains(135, false), ...Object.values(stereoGains(0.5, false)));
  nearGains(azimuthGains(-135, true), ...Object.values(stereoGains(-0.5, true)));
  nearGains(azimuthGains(180, false), HALF, HALF, true);
});

const model = (distanceModel, rolloffFactor) => ({distanceModel, rolloffFactor, refDistance: 1, maxDistance: 11});

test('distances make softer by three models', () => {
  near(distanceGain(model('inverse', 1), 3), 1 / 3);
  near(distanceGain(model('inverse', 0.5), 3), 0.5);
  near(distanceGain(model('inverse', 1), 0.25), 1);
  near(distanceGain(model('linear', 1), 6), 0.5);
  near(distanceGain(model('linear', 3), 6), 0.5);
  near(distanceGain(model('linear', 1), 100), 0);
  near(distanceGain(model('exponential', 0.5), 4), 0.5);
});

test('a cone is softer at its sides', () => {
  const cone = {coneInnerAngle: 120, coneOuterAngle: 240, coneOuterGain: 0.25}, ahead = [1, 0, 0];
  near(coneGain(cone, [0, 0, 0], ahead, [5, 0, 0]), 1);
  near(coneGain(cone, [0, 0, 0], ahead, [0, 2, 0]), 0.625);
  near(coneGain(cone, [0, 0, 0], ahead, [-1, 0, 0]), 0.25);
  near(coneGain(cone, [0, 0, 0], [0, 0, 0], [-1, 0, 0]), 1);
});
