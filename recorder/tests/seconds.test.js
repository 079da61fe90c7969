// The seconds of frames, by hand.

import assert from 'node:assert/strict';
import {test} from 'node:test';
import {inSeconds, secondsOf} from '../seconds.js';

test('frames have their seconds, a half going up', () => {
  for (const [frame, rate, seconds] of [
    [0, 48000, '0.000000000'],
    [129, 48000, '0.002687500'],
    [128, 48000, '0.002666667'],
    [-1, 48000, '-0.000020833'],
    [48000, 48000, '1.000000000'],
    [2, 10240, '0.000195313'], // 195312.5 billionths
    [-2, 10240, '-0.000195312'],
    [2 ** 40, 8000, '137438953.472000000'],
    [-(2 ** 40), 8000, '-137438953.472000000'],
  ]) assert.equal(secondsOf(frame, rate), seconds);
});

test('a call keeps all but its times, and a null', () => {
  const call = {op: 'start', node: 's', when: 24000, offset: 0, duration: null};
  assert.deepEqual(inSeconds(call, 48000, ['when', 'offset', 'duration']),
    {op: 'start', node: 's', when: '0.500000000', offset: '0.000000000', duration: null});
  assert.deepEqual(inSeconds({op: 'stop', node: 's'}, 48000, ['when']), {op: 'stop', node: 's'});
  assert.deepEqual(inSeconds({op: 'stop', node: 's', when: 5}, 0, ['when']), {op: 'stop', node: 's', when: '0'});
});
