// Bounds: how loud a node of a script can be at most, worked out of its calls.
//
// All connections that are ever made count at once. What is in a cycle has no bound.

const ONE = 2 ** 24;
const VALUES = ['value', 'offset', 'gain'];

const largest = numbers => numbers.reduce((most, number) => Math.max(most, Math.abs(number)), 0) / ONE;

const every = calls => calls.flatMap(call => [call, ...(call.then ? every(call.then) : [])]);

// What the calls say of each node: its creation, the largest value of its parameter, what leads into it.
function nodesOf(calls) {
  const nodes = new Map();
  const of = name => {
    if (!nodes.has(name)) nodes.set(name, {creation: null, value: 0, curve: null, buffers: [], inputs: new Set(), modulators: new Set()});
    return nodes.get(name);
  };
  for (const call of calls) {
    if (call.as) {
      const isOne = (call.op === 'createGain' && call.gain === undefined) || (call.op === 'createConstantSource' && call.offset === undefined);
      Object.assign(of(call.as), {creation: call, value: isOne ? 1 : 0});
      if (call.curve) of(call.as).curve = call.curve;
    }
    const node = of(call.as || call.node || call.to);
    for (const name of VALUES) if (typeof call[name] === 'number') node.value = Math.max(node.value, largest([call[name]]));
    if (call.values) node.value = Math.max(node.value, largest(call.values));
    if (call.curve) node.curve = [...(node.curve || []), ...call.curve];
    if (call.buffer) node.buffers.push(call.buffer);
    if (call.op === 'connect') of(call.to).inputs.add(call.from);
    if (call.op === 'connectParam') of(call.to).modulators.add(call.from);
  }
  return nodes;
}

// Of each filter the loudest that it can be inside, where its input is 1 at most, is given by `gainOf(name)`, and of
// each buffer its peak by `peakOf(name)` and the sum of its samples, all above 0, by `sumOf(name)`.
export class Bounds {
  constructor(main, gainOf, peakOf, sumOf = () => Infinity) {
    this.nodes = nodesOf(every(main));
    Object.assign(this, {gainOf, peakOf, sumOf, known: new Map()});
  }

  sum(names) {
    return [...names].reduce((whole, name) => whole + this.at(name), 0);
  }

  // The bound of what a node puts out.
  at(name) {
    if (this.known.has(name)) return this.known.get(name);
    this.known.set(name, Infinity); // where this is asked for before it is known, there is a cycle
    const bound = this.workOut(name, this.nodes.get(name));
    this.known.set(name, bound);
    return bound;
  }

  inputOf(name) {
    return this.sum(this.nodes.get(name).inputs);
  }

  workOut(name, node) {
    if (!node || !node.creation) return 0;
    const input = this.sum(node.inputs), value = node.value + this.sum(node.modulators);
    switch (node.creation.op) {
      case 'createConstantSource': return value;
      case 'createGain': return input === 0 ? 0 : input * value;
      case 'createBufferSource': return Math.max(0, ...node.buffers.map(this.peakOf));
      case 'createConvolver': return input === 0 || !node.buffers.length ? 0 : input * this.sumOf(node.buffers[0]);
      case 'createWaveShaper': return node.curve ? Math.max(largest(node.curve), input) : input;
      case 'createIIRFilter':
      case 'createBiquadFilter': return input === 0 ? 0 : input * this.gainOf(name);
      default: return input;
    }
  }
}
