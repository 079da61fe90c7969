// The recorder's words against those of the documents: its operations are in the schema, its features are known.

import assert from 'node:assert/strict';
import {readFileSync, readdirSync} from 'node:fs';
import {test} from 'node:test';

const folder = new URL('..', import.meta.url), textOf = name => readFileSync(new URL(name, folder), 'utf8');
const schema = JSON.parse(textOf('../docs/script.schema.json'));
const modules = readdirSync(folder).filter(name => name.endsWith('.js') && name !== 'recorder.js');

test('each operation that a module writes is in the schema', () => {
  for (const name of modules)
    for (const [, op] of textOf(name).matchAll(/\bop: '(\w+)'/g)) assert.ok(schema.$defs[op], `${name}: ${op}`);
});

test('each feature of the schema has words in losses.js', () => {
  const losses = textOf('losses.js');
  for (const {description} of Object.values(schema.$defs)) {
    const told = /with the feature ([a-z-]+)/.exec(description || '');
    if (told) assert.ok(losses.includes(`'${told[1]}'`), told[1]);
  }
});

test('each kind of loss that a module names is in losses.js', () => {
  const losses = textOf('losses.js');
  for (const name of modules)
    for (const [, kind] of textOf(name).matchAll(/\blose\('([a-z-]+)'/g)) assert.ok(losses.includes(`'${kind}'`), `${name}: ${kind}`);
});
