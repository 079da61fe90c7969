// Widths: how many channels there are where something sounds, worked out of the nodes and their connections.
//
// A width is a set of numbers: all numbers of channels that there may be while something sounds. What is silent has
// none. Silence of any number of channels is mixed to the same.

const PASSING = new Set(['GainNode', 'DelayNode', 'BiquadFilterNode', 'IIRFilterNode', 'WaveShaperNode', 'AnalyserNode']);

const ONE = new Set([1]), TWO = new Set([2]);

// What a convolver puts out: as many channels as it hears, where its response has one.
function convolved({responses = []}, input) {
  const isMono = responses.every(({channels}) => !channels || channels.length === 1);
  return isMono ? new Set([...input].map(width => Math.min(width, 2))) : TWO;
}

export class Widths {
  constructor(graph) {
    this.graph = graph;
    this.known = new Map(); // name and output -> width
    for (let isGrowing = true; isGrowing;) isGrowing = this.grow();
  }

  of(name, output = 0) {
    return this.known.get(`${name} ${output}`) || new Set();
  }

  // Goes once through all nodes. Gives whether a width has grown.
  grow() {
    let isGrowing = false;
    for (const [name, entry] of this.graph.entries)
      for (let output = 0; output < entry.node.numberOfOutputs; output++) {
        const found = this.output(entry, output);
        if (found.size > this.of(name, output).size) isGrowing = true;
        this.known.set(`${name} ${output}`, found);
      }
    return isGrowing;
  }

  // What the input of a node hears, mixed as the node asks for it.
  input({name, node}, input = 0) {
    const all = new Set();
    for (const edge of this.graph.entering(name))
      if (!edge.param && edge.input === input) for (const width of this.of(edge.from, edge.output)) all.add(width);
    const {channelCount, channelCountMode} = node;
    if (channelCountMode === 'explicit') return new Set(all.size ? [channelCount] : []);
    return channelCountMode === 'max' ? all : new Set([...all].map(width => Math.min(width, channelCount)));
  }

  output(entry, output) {
    const {kind, node} = entry;
    if (PASSING.has(kind)) return this.input(entry);
    switch (kind) {
      case 'AudioBufferSourceNode': return new Set(entry.widths || (entry.startCall ? ONE : []));
      case 'ChannelMergerNode': return new Set([node.numberOfInputs]);
      case 'StereoPannerNode':
      case 'PannerNode':
      case 'DynamicsCompressorNode': return this.input(entry).size ? TWO : new Set();
      case 'ConvolverNode': return convolved(entry, this.input(entry));
      case 'AudioWorkletNode': return this.ofWorklet(entry, output);
      case 'ScriptProcessorNode': return new Set([entry.options.outputs]);
      case 'OscillatorNode':
      case 'ConstantSourceNode':
      case 'ChannelSplitterNode': return ONE;
    }
    return TWO;
  }

  ofWorklet(entry, output) {
    const {outputChannelCount} = entry.options;
    if (outputChannelCount) return new Set([outputChannelCount[output]]);
    const isPassing = entry.node.numberOfInputs === 1 && entry.node.numberOfOutputs === 1;
    return isPassing ? new Set([...ONE, ...this.input(entry)]) : ONE;
  }
}
