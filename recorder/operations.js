// Operations: what a script may have, as docs/script.schema.json lists it.

import schema from '../docs/script.schema.json';

const definitions = schema.$defs;

export const isOperation = op => Boolean(definitions[op] && definitions[op].properties && definitions[op].properties.op);

// The operation that creates a node of an interface, as createBufferSource for AudioBufferSourceNode.
export function creationOf(kind) {
  const short = kind.replace(/Node$/, '');
  return [`create${kind}`, `create${short}`, `create${short.replace('Audio', '')}`].find(isOperation);
}

// The feature word with which waplay refuses an operation that the profile leaves out, or null.
export function featureOf(op) {
  const told = /with the feature ([a-z]+(?:-[a-z]+)*)/.exec(definitions[op].description);
  return told ? told[1] : null;
}

// The fields of an operation that are times, which are texts of seconds in version 2.
export const timesOf = op => Object.entries(definitions[op].properties)
  .filter(([, field]) => [field, ...field.anyOf || []].some(part => part.$ref === '#/$defs/time'))
  .map(([name]) => name);

// The words that the field `value` of an operation may have.
export const wordsOf = op => definitions[op].properties.value.enum;
