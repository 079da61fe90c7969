// How loud a node can be, worked out of the calls.

import assert from 'node:assert/strict';
import {test} from 'node:test';
import {Bounds} from '../bounds.js';

const ONE = 2 ** 24;
const boundsOf = calls => new Bounds(calls, () => 2, () => 0.5);

test('gains multiply and connections add up', () => {
  const bounds = boundsOf([
    {op: 'createConstantSource', as: 'c', offset: 2 * ONE}, {op: 'createGain', as: 'g', gain: ONE / 2},
    {op: 'createBufferSource', as: 's', buffer: 'b'}, {op: 'createIIRFilter', as: 'f'},
    {op: 'connect', from: 'c', to: 'g'}, {op: 'connect', from: 's', to: 'g'}, {op: 'connect', from: 'g', to: 'f'},
  ]);
  assert.equal(bounds.at('c'), 2);
  assert.equal(bounds.at('g'), 1.25);
  assert.equal(bounds.at('f'), 2.5);
});

test('what is called at a suspension counts', () => {
  const bounds = boundsOf([
    {op: 'createConstantSource', as: 'c'},
    {op: 'suspend', time: 128, then: [{op: 'setValue', node: 'c', param: 'offset', value: 3 * ONE}]},
  ]);
  assert.equal(bounds.at('c'), 3);
});

test('a cycle has no bound', () => {
  const bounds = boundsOf([
    {op: 'createConstantSource', as: 'c'}, {op: 'createGain', as: 'g'}, {op: 'createDelay', as: 'd'},
    {op: 'connect', from: 'c', to: 'g'}, {op: 'connect', from: 'g', to: 'd'}, {op: 'connect', from: 'd', to: 'g'},
  ]);
  assert.equal(bounds.at('g'), Infinity);
});
