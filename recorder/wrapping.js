// Wrapping: how the recorder stands between a page and the browser.
//
// Each wrapper calls the browser first, and then tells the recorder what was called and what came of it.
// A fault of the recorder itself never reaches the page; it becomes a loss of the recording.

import {native} from './native.js';
import {entryOfNode, entryOfParameter, recordingOfContext} from './recording.js';

export const faults = [];

function recordingOf(object) {
  const entry = entryOfNode.get(object) || entryOfParameter.get(object);
  return recordingOfContext.get(object) || (entry && entry.recording);
}

export function quietly(object, tell) {
  try {
    tell();
  } catch (fault) {
    faults.push(String(fault && fault.stack || fault));
    const recording = recordingOf(object);
    if (recording) recording.lose('recorder-fault');
  }
}

// The numbers of an array or of anything else that can be gone through. It is gone through once: a page may give a
// generator, or an array that it writes into later. What is none is left for the browser to refuse.
export function takenNumbers(list) {
  const isList = list !== null && typeof list === 'object' && typeof list[Symbol.iterator] === 'function';
  return isList ? Array.from(list, number => +number) : list;
}

// An argument that is a list of numbers or a number, with what it takes to make numbers of objects done once.
export function takenArgument(argument) {
  const taken = takenNumbers(argument);
  return taken === argument && argument !== null && typeof argument === 'object' ? +argument : taken;
}

// Wraps a method. `tell(object, args, result, exception)` is called after it. `take(args)` may give arguments that
// stand for those of the page.
export function wrapMethod(prototype, name, tell, take = args => args) {
  const inner = prototype && prototype[name];
  if (typeof inner !== 'function' || !Object.hasOwn(prototype, name)) return;
  putMethod(prototype, name, inner, {[name](...given) {
    const args = given.length < inner.length ? given : take(given); // the browser refuses too few arguments first
    let result, exception, isThrown = false;
    try {
      result = inner.apply(this, args);
    } catch (thrown) {
      exception = thrown;
      isThrown = true;
    }
    quietly(this, () => tell(this, args, result, exception));
    if (isThrown) throw exception;
    return result;
  }}[name]);
}

// Puts a method in the place of another one.
function putMethod(prototype, name, inner, outer) {
  Object.defineProperty(outer, 'length', {value: inner.length, configurable: true});
  Object.defineProperty(prototype, name, {value: outer, writable: true, enumerable: true, configurable: true});
}

// Wraps the setter of an attribute. `tell(object, value, exception)` is called after it.
export function wrapAttribute(prototype, name, tell, take = value => value) {
  const inner = prototype && Object.getOwnPropertyDescriptor(prototype, name);
  if (!inner || !inner.set) return;
  Object.defineProperty(prototype, name, {
    configurable: true,
    enumerable: inner.enumerable,
    get: inner.get,
    set(given) {
      const value = take(given);
      let exception;
      try {
        inner.set.call(this, value);
      } catch (thrown) {
        exception = thrown;
      }
      quietly(this, () => tell(this, value, exception));
      if (exception) throw exception;
    },
  });
}

// Wraps a constructor. `tell(args, object, exception)` is called after it, and `take` is as for methods.
export function wrapConstructor(name, tell, take = args => args) {
  const inner = globalThis[name];
  if (!inner) return;
  const outer = new Proxy(inner, {
    construct(target, given, newTarget) {
      const args = take(given);
      let object, exception, isThrown = false;
      try {
        object = Reflect.construct(target, args, newTarget === outer ? target : newTarget);
      } catch (thrown) {
        exception = thrown;
        isThrown = true;
      }
      quietly(args[0], () => tell(args, object, exception));
      if (isThrown) throw exception;
      return object;
    },
  });
  const property = {value: outer, writable: true, enumerable: false, configurable: true};
  for (const alias of [name, 'webkit' + name]) if (globalThis[alias] === inner) Object.defineProperty(globalThis, alias, property);
  Object.defineProperty(inner.prototype, 'constructor', property);
}

// A promise that settles as this one does, but after `fulfilled` or `rejected` heard of it. Nothing is added to the
// promise that the page gets, so a rejection that the page does not handle is still told to it.
export function heardPromise(promise, object, {fulfilled, rejected}) {
  return native.then.call(promise, value => {
    quietly(object, () => fulfilled(value));
    return value;
  }, reason => {
    quietly(object, () => rejected(reason));
    throw reason;
  });
}

// Wraps a method that gives a promise. `tell(recording, args)` is called before the browser is, and may give
// {fulfilled, rejected}, which hear how the promise settled before the page does, one microtask earlier. Where it
// gives null, the page has the browser's own promise.
export function wrapPromise(prototype, name, tell) {
  const inner = prototype && prototype[name];
  if (typeof inner !== 'function' || !Object.hasOwn(prototype, name)) return;
  putMethod(prototype, name, inner, {[name](...args) {
    const recording = recordingOfContext.get(this);
    let heard;
    if (recording) quietly(this, () => { heard = tell(recording, args); });
    const promise = inner.apply(this, args);
    return heard ? heardPromise(promise, this, heard) : promise;
  }}[name]);
}
