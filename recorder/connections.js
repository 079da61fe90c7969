// Connections: connect and disconnect in all their forms, to nodes and to parameters.

import {note} from './journal.js';
import {loseOfParameter} from './parameters.js';
import {entryOfNode, entryOfParameter} from './recording.js';
import {wrapMethod} from './wrapping.js';

// Where an argument leads: {node} or {parameter} of the same recording, or null where it is of another context.
export function endOf(recording, object) {
  const parameter = entryOfParameter.get(object);
  if (parameter) return parameter.recording === recording ? {parameter} : null;
  const node = entryOfNode.get(object);
  return node && node.recording === recording ? {node} : null;
}

// Notes what a use of a parameter means for baking, and what waplay refuses.
function parameterConnected(recording, parameter, call) {
  parameter.node.isBakeable = false;
  parameter.node.isSteady = false;
  if (parameter.name === 'delayTime') recording.lose('delay-fraction', call, 0.5);
  loseOfParameter(recording, parameter, call);
}

// Where a connection leads, for the log: the entry of a node, the name of one of its parameters, an output and an input.
const placeOf = ({node, parameter}, {output, input}) =>
  ({to: parameter ? parameter.node : node, param: parameter ? parameter.name : null, output, input});

export function wrapConnections() {
  wrapMethod(AudioNode.prototype, 'connect', (node, [target, output, input], result, exception) => {
    const from = entryOfNode.get(node);
    if (!from || from.recording.leavesOut(exception)) return;
    const recording = from.recording, end = endOf(recording, target);
    if (!end) {
      recording.lose('call-left-out'); // the other end is of another context; the browser refuses that
      return;
    }
    const {parameter} = end;
    const call = parameter ? {op: 'connectParam', from: from.name, to: parameter.node.name, param: parameter.name}
                           : {op: 'connect', from: from.name, to: end.node.name};
    if (output) call.output = output >>> 0;
    if (input && !parameter) call.input = input >>> 0;
    recording.emit([call], exception);
    if (!exception) note(from, {connect: placeOf(end, call)});
    if (from.kind === 'destination') recording.lose('destination-output', call);
    else if (parameter && !exception) parameterConnected(recording, parameter, call);
  });

  wrapMethod(AudioNode.prototype, 'disconnect', (node, args, result, exception) => {
    const from = entryOfNode.get(node);
    if (!from || from.recording.leavesOut(exception)) return;
    const recording = from.recording, [target, output, input] = args;
    const call = {op: 'disconnect', from: from.name};
    let end = {};
    if (target instanceof AudioNode || target instanceof AudioParam) {
      end = endOf(recording, target);
      if (!end) {
        recording.lose('call-left-out');
        return;
      }
      call.to = (end.parameter ? end.parameter.node : end.node).name;
      if (end.parameter) Object.assign(call, {op: 'disconnectParam', param: end.parameter.name});
      if (args.length > 1) call.output = output >>> 0;
      if (args.length > 2 && !end.parameter) call.input = input >>> 0;
    } else if (args.length && target !== undefined) call.output = target >>> 0;
    recording.emit([call], exception);
    if (!exception) note(from, {disconnect: placeOf(end, call)});
    if (from.kind === 'destination') recording.lose('destination-output', call);
  });
}
