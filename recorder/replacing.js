// Replacing: nodes that a script has not give way to others, once rendering is over.

// Calls on a node that stay with what comes in its place. So do its connections.
export const ATTRIBUTE_OPS = ['setChannelCount', 'setChannelCountMode', 'setChannelInterpretation'];

const isCallOn = call => call.node !== undefined && !ATTRIBUTE_OPS.includes(call.op);

// What comes in the place of nodes. All of it is put into the script at once, by `apply`.
export class Replacements {
  constructor(recording) {
    this.recording = recording;
    this.byName = new Map(); // name -> {entry, calls, head}
    this.byCall = new Map(); // call -> calls
  }

  // Lets calls come in the place of the one that creates a node, and takes away all calls on it. What led into the
  // node leads into `head`, and one of the calls makes a node of its name, from which its connections go on.
  put(entry, calls, head = entry.name) {
    this.byName.set(entry.name, {entry, calls, head});
  }

  // Lets calls come in the place of one that is no creation.
  putAt(call, calls) {
    this.byCall.set(call, calls);
  }

  // Whether a node refused an attribute, which what comes in its place would take.
  refuses(call) {
    return this.recording.outcomes.has(call) && /(Panner|Convolver)Node$/.test(this.byName.get(call.node).entry.kind);
  }

  headOf(name) {
    const found = this.byName.get(name);
    return found ? found.head : name;
  }

  // The calls for one call of the script.
  callsFor(call) {
    if (this.byCall.has(call)) return this.byCall.get(call);
    const made = this.byName.get(call.as);
    if (made && made.entry.creation === call) return made.calls;
    if (this.byName.has(call.node) && (isCallOn(call) || this.refuses(call))) return [];
    if (call.to !== undefined && !call.param) call.to = this.headOf(call.to);
    if (call.node !== undefined) call.node = this.headOf(call.node);
    return [call];
  }

  applyTo(list) {
    const calls = list.flatMap(call => this.callsFor(call));
    list.length = 0;
    for (const call of calls) list.push(call);
    for (const call of calls) if (call.then) this.applyTo(call.then);
  }

  apply() {
    this.applyTo(this.recording.main);
    for (const [name, {entry, calls}] of this.byName) {
      entry.creation = calls.find(call => call.as === name) || entry.creation;
      this.recording.refusedNames.delete(name);
    }
  }
}
