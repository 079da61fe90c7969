// Parameters: the attribute value and the methods of AudioParam.

import {Timeline, eventOf} from './automation.js';
import {CALL_ALONE, LOWERING} from './lowering.js';
import {journal} from './journal.js';
import {putPlaybackRate} from './nodes.js';
import {settings} from './settings.js';
import {entryOfParameter} from './recording.js';
import {fixedList, fixedSeconds, fixedValue, frameOf, framePlace, isBehindFrame} from './values.js';
import {takenArgument, wrapAttribute, wrapMethod} from './wrapping.js';

const SCRIPT_PARAMETERS = {ConstantSourceNode: ['offset'], GainNode: ['gain'], DelayNode: ['delayTime']};

// Whether a script can say what happens to a parameter.
const isInScript = parameter => (SCRIPT_PARAMETERS[parameter.node.kind] || []).includes(parameter.name);

const isOfBufferSource = parameter => parameter.node.kind === 'AudioBufferSourceNode';

export function fixedParameterValue(parameter, value, call) {
  if (!isInScript(parameter)) {
    call.valueOfPage = value; // waplay reads no such member; it is for people
    return 0;
  }
  return parameter.name === 'delayTime' ? fixedSeconds(parameter.recording, value, call)
                                        : fixedValue(parameter.recording, value, call);
}

// What waplay refuses of a parameter, whatever the call.
export function loseOfParameter(recording, parameter, call) {
  if (!isOfBufferSource(parameter)) return;
  recording.lose(parameter.name === 'detune' ? 'detune' : 'playback-rate-automation', call);
}

const loseOfMoving = (parameter, call) => {
  if (parameter.name === 'delayTime') parameter.recording.lose('delay-fraction', call, 0.5);
};

// The frame of an event, which may have stayed behind a frame that its time is near to.
function frameOfEvent(recording, event, seconds, call, rule) {
  const stays = event && isBehindFrame(event.place);
  return frameOf(recording, seconds, call, rule, stays ? event.place : framePlace(recording, seconds));
}

// What each method puts into its call besides the node and the parameter.
const AUTOMATION = {
  setValueAtTime(recording, parameter, call, event, [value, seconds]) {
    call.value = fixedParameterValue(parameter, +value, call);
    call.time = frameOfEvent(recording, event, +seconds, call, 'next');
  },
  linearRampToValueAtTime(recording, parameter, call, event, [value, seconds]) {
    call.value = fixedParameterValue(parameter, +value, call);
    call.time = frameOfEvent(recording, event, +seconds, call, 'nearest');
    loseOfMoving(parameter, call);
    const previous = parameter.timeline.events[parameter.timeline.indexAt(seconds * recording.rate)];
    const begin = previous ? Timeline.endOf(previous) : 0; // where this lies between frames, so does the whole ramp
    if (!Number.isInteger(begin)) recording.lose('time-rounded', call, Math.ceil(begin) - begin);
  },
  setValueCurveAtTime(recording, parameter, call, event, [values, seconds, duration]) {
    call.values = isInScript(parameter) ? fixedList(recording, Float32Array.from(values), call) : Array.from(values, () => 0);
    call.time = frameOfEvent(recording, event, +seconds, call, 'nearest');
    call.duration = +duration > 0 ? Math.max(1, frameOf(recording, +duration, call, 'nearest')) : Math.min(0, Math.floor(+duration));
    loseOfMoving(parameter, call);
  },
  exponentialRampToValueAtTime(recording, parameter, call, event, [value, seconds]) {
    Object.assign(call, {valueOfPage: +value, secondsOfPage: +seconds});
    if (isInScript(parameter)) recording.lose('exponential-ramp', call);
  },
  setTargetAtTime(recording, parameter, call, event, [value, seconds, timeConstant]) {
    Object.assign(call, {valueOfPage: +value, secondsOfPage: +seconds, timeConstantOfPage: +timeConstant});
    if (isInScript(parameter)) recording.lose('set-target', call);
  },
  cancelScheduledValues(recording, parameter, call, event, [seconds]) {
    call.time = frameOfEvent(recording, event, +seconds, call, 'next');
  },
  cancelAndHoldAtTime(recording, parameter, call, event, [seconds]) {
    call.time = frameOfEvent(recording, event, +seconds, call, parameter.timeline.isMovingAt(seconds * recording.rate) ? 'nearest' : 'next');
  },
};

// A playback rate that is set before the start, in the list that creates the source, is an option of the creation.
function becomesCreationOption(parameter, value, isNow) {
  const {node, recording} = parameter;
  if (!isOfBufferSource(parameter) || !isNow || parameter.events) return false;
  if (parameter.name === 'detune') return value === 0;
  if (node.list !== recording.current) return false;
  recording.losses = recording.losses.filter(loss => loss.call !== node.creation || loss.kind !== 'playback-rate');
  putPlaybackRate(recording, node.creation, value);
  recording.lose('creation-option', node.creation);
  return true;
}

// Keeps the page's events in the parameter's timeline.
function keepEvent(parameter, event, call) {
  const {timeline, recording} = parameter;
  event.madeAt = recording.now;
  if (event.kind === 'cancel' || event.kind === 'hold') parameter.isCancelled = true;
  if (event.kind === 'cancel') timeline.cancel(event.place);
  else if (event.kind === 'hold') timeline.hold(event.place, recording.now);
  else {
    // An event that is put in front of a ramp says where that begins.
    const next = timeline.events[timeline.indexAt(event.place) + 1], begin = Timeline.endOf(event);
    const isPlainRamp = next && next.kind === 'ramp' && !next.isLowered;
    if (isPlainRamp && !Number.isInteger(begin)) recording.lose('time-rounded', call, Math.ceil(begin) - begin);
    timeline.put(event);
  }
}

// The calls for a page's call on a parameter, rewritten where the option `plain` does not forbid it.
function automationCalls(parameter, call, event, fill) {
  const {recording} = parameter;
  const lowered = event && settings.lower && isInScript(parameter) ? LOWERING[event.kind](parameter, event) : CALL_ALONE;
  const calls = lowered ? lowered.calls : [];
  if (lowered && lowered.kind) {
    if (calls.length) for (const made of calls) recording.lose(lowered.kind, made);
    else recording.lose(lowered.kind);
  }
  if (!lowered || lowered.keepsCall) {
    fill(call);
    calls.push(call);
  }
  if (lowered && lowered.failed) recording.lose('lowering-failed', calls[calls.length - 1]);
  if (event) keepEvent(parameter, event, calls[calls.length - 1]);
  return calls;
}

// The listener has no place in a script. What its parameters do is kept for the panners.
function emitOfListener(parameter, event, exception) {
  const {recording} = parameter, call = {op: 'setListener'};
  if (event) keepEvent(parameter, event, call);
  recording.emit([call], exception);
  recording.lose('listener', call);
}

function automated(method, object, args, result, exception) {
  const parameter = entryOfParameter.get(object);
  if (!parameter || parameter.recording.leavesOut(exception)) return;
  const {recording, node} = parameter;
  if (exception && (method === 'exponentialRampToValueAtTime' || method === 'setTargetAtTime')) {
    recording.lose('call-left-out'); // waplay would name its own reason
    return;
  }
  if (!exception) {
    journal(node, copy => copy[parameter.name][method](...args));
    const isNow = method === 'setValueAtTime' && +args[1] <= 0 && recording.phase === 'before';
    if (becomesCreationOption(parameter, Math.fround(+args[0]), isNow)) return;
  }
  const event = exception ? null : eventOf(parameter, method, args);
  if (node.kind === 'listener') return emitOfListener(parameter, event, exception);
  parameter.events++;
  const call = {op: method, node: node.name, param: parameter.name};
  const calls = automationCalls(parameter, call, event, made => AUTOMATION[method](recording, parameter, made, event, args));
  loseOfParameter(recording, parameter, call);
  recording.emit(calls, exception);
}

function valueSet(object, value, exception) {
  const parameter = entryOfParameter.get(object);
  if (!parameter || parameter.recording.leavesOut(exception)) return;
  const {recording, node} = parameter, number = Math.fround(+value);
  if (!exception) {
    journal(node, copy => { copy[parameter.name].value = number; });
    if (becomesCreationOption(parameter, number, true)) return;
  }
  const event = exception ? null : eventOf(parameter, 'value', [number]);
  if (node.kind === 'listener') return emitOfListener(parameter, event, exception);
  parameter.events++;
  const call = {op: 'setValue', node: node.name, param: parameter.name};
  const calls = automationCalls(parameter, call, event, made => { made.value = fixedParameterValue(parameter, number, made); });
  loseOfParameter(recording, parameter, call);
  recording.emit(calls, exception);
}

// A value that is set without the attribute, as by the old methods of panners and of the listener.
export function valueTaken(object, number) {
  const parameter = entryOfParameter.get(object);
  if (!parameter) return;
  journal(parameter.node, copy => { copy[parameter.name].value = number; });
  parameter.timeline.put(eventOf(parameter, 'value', [number]));
}

function rateSet(object, rate, exception) {
  const parameter = entryOfParameter.get(object);
  if (!parameter || !['a-rate', 'k-rate'].includes(rate) || parameter.recording.leavesOut(exception)) return;
  const {recording, node} = parameter;
  if (!exception) journal(node, copy => { copy[parameter.name].automationRate = rate; });
  if (node.kind === 'listener') return emitOfListener(parameter, null, exception);
  if (isOfBufferSource(parameter)) return; // k-rate is all that they have
  recording.emit([{op: 'setAutomationRate', node: node.name, param: parameter.name, value: rate}], exception);
}

export function wrapParameters() {
  for (const method of Object.keys(AUTOMATION))
    wrapMethod(AudioParam.prototype, method, (object, args, result, exception) => automated(method, object, args, result, exception),
      args => args.map(takenArgument));
  wrapAttribute(AudioParam.prototype, 'value', valueSet, takenArgument);
  wrapAttribute(AudioParam.prototype, 'automationRate', rateSet);
}
