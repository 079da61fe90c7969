// What is left out: attributes and methods of nodes that a script has not. What is done to them counts for what comes in
// their place, and for copies of them.

import {bufferOf, contentOf} from './buffers.js';
import {takeResponse} from './convolvers.js';
import {journal} from './journal.js';
import {valueTaken} from './parameters.js';
import {entryOfNode} from './recording.js';
import {isGiven} from './values.js';
import {wrapAttribute, wrapMethod} from './wrapping.js';

// Attributes that count from when they are set on.
const ATTRIBUTES = {
  BiquadFilterNode: ['type'],
  ConvolverNode: ['normalize'],
  PannerNode: ['panningModel', 'distanceModel', 'refDistance', 'maxDistance', 'rolloffFactor', 'coneInnerAngle', 'coneOuterAngle',
    'coneOuterGain'],
};

function attributeSet(node, name, value, exception) {
  const entry = entryOfNode.get(node);
  if (!entry || exception) return;
  entry.attributesAt = entry.recording.now;
  journal(entry, copy => { copy[name] = value; });
}

// A convolver takes the content of its buffer.
export function responseSet(entry, buffer) {
  if (!entry) return;
  const channels = isGiven(buffer) ? contentOf(buffer).map(samples => Float32Array.from(samples)) : null;
  takeResponse(entry, channels);
  journal(entry, copy => { copy.buffer = channels && bufferOf(channels, buffer.sampleRate); });
}

// The old methods of panners and of the listener, and the parameters that they set.
const AXES = ['X', 'Y', 'Z'];
const allAxes = (...names) => names.flatMap(name => AXES.map(axis => name + axis));
const VECTORS = {
  PannerNode: {setPosition: allAxes('position'), setOrientation: allAxes('orientation')},
  AudioListener: {setPosition: allAxes('position'), setOrientation: allAxes('forward', 'up')},
};

export function wrapLeftOut() {
  for (const [kind, names] of Object.entries(ATTRIBUTES))
    for (const name of names)
      wrapAttribute(globalThis[kind].prototype, name, (node, value, exception) => attributeSet(node, name, value, exception));
  for (const [kind, methods] of Object.entries(VECTORS))
    for (const [method, names] of Object.entries(methods))
      wrapMethod(globalThis[kind].prototype, method, (object, args, result, exception) => {
        if (!exception) names.forEach((name, place) => valueTaken(object[name], Math.fround(+args[place])));
      });
  wrapAttribute(globalThis.ConvolverNode.prototype, 'buffer', (node, buffer, exception) => {
    if (!exception) responseSet(entryOfNode.get(node), buffer);
  });
  wrapAttribute(globalThis.OscillatorNode.prototype, 'type', (node, type, exception) => {
    if (!exception) journal(entryOfNode.get(node), copy => { copy.type = type; });
  });
  wrapMethod(globalThis.OscillatorNode.prototype, 'setPeriodicWave', (node, [wave], result, exception) => {
    if (!exception) journal(entryOfNode.get(node), copy => copy.setPeriodicWave(wave));
  });
}
