// Timers: what a page asks the time by, and what it sets by the time, put on the clock of a real-time piece.

import {addFrameTimer, addTimer, awaited, clockNow, firstDate, removeTimer} from './clock.js';

const IDLE_TIME = 50; // milliseconds that an idle callback is told to have

const dateNow = () => Math.floor(firstDate + clockNow());

function replaceDate() {
  const inner = Date;
  const outer = new Proxy(inner, {
    construct: (target, args, newTarget) =>
      Reflect.construct(target, args.length ? args : [dateNow()], newTarget === outer ? target : newTarget),
    apply: () => new inner(dateNow()).toString(),
  });
  inner.now = dateNow;
  inner.prototype.constructor = outer;
  globalThis.Date = outer;
}

function replaceIdleCallbacks() {
  globalThis.requestIdleCallback = callback => addTimer(() => {
    const end = clockNow() + IDLE_TIME;
    callback({didTimeout: false, timeRemaining: () => Math.max(0, end - clockNow())});
  }, 1);
  globalThis.cancelIdleCallback = removeTimer;
}

function replaceTasks() {
  AbortSignal.timeout = milliseconds => {
    const controller = new AbortController();
    addTimer(() => controller.abort(new DOMException('signal timed out', 'TimeoutError')), milliseconds);
    return controller.signal;
  };
  const {scheduler} = globalThis;
  if (!scheduler) return;
  const post = scheduler.postTask.bind(scheduler);
  scheduler.postTask = (callback, options = {}) => {
    if (!(options.delay > 0)) return post(callback, options);
    return new Promise(due => addTimer(due, options.delay)).then(() => post(callback, {...options, delay: 0}));
  };
}

// While the page loads or decodes something, the audio clock waits for it.
function waitFor(object, name) {
  const inner = object[name];
  object[name] = {[name](...args) { return awaited(inner.apply(this, args)); }}[name];
}

export function replaceTimers() {
  globalThis.setTimeout = (callback, milliseconds, ...args) => addTimer(callback, milliseconds, false, args);
  globalThis.setInterval = (callback, milliseconds, ...args) => addTimer(callback, milliseconds, true, args);
  globalThis.clearTimeout = globalThis.clearInterval = removeTimer;
  globalThis.requestAnimationFrame = addFrameTimer;
  globalThis.cancelAnimationFrame = removeTimer;
  performance.now = clockNow;
  Object.defineProperty(document.timeline, 'currentTime', {get: clockNow, configurable: true});
  replaceDate();
  replaceIdleCallbacks();
  replaceTasks();
  waitFor(globalThis, 'fetch');
  for (const name of ['arrayBuffer', 'json', 'text', 'blob']) waitFor(Response.prototype, name);
  waitFor(BaseAudioContext.prototype, 'decodeAudioData');
}
