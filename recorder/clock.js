// Clock: the page's clock in a real-time piece, and the timers that are due by it.
//
// Timers run as usual until the piece begins, which is when it has a context and, if it waits for a click, was
// clicked on. Then the clock stands still until `go` is called, and from then on it is that of the audio.

import {native} from './native.js';
import {settings} from './settings.js';

const LONGEST_WAIT = 5000; // milliseconds in which the page may load something while the audio waits
const MOST_TIMERS = 10000; // that are due at one time
const NESTED = 5, LEAST_NESTED = 4; // timers nested deeper than 5 wait for 4 milliseconds at least
const FRAME = 1000 / 60;

export const realTime = {
  contexts: [],           // recordings of real-time contexts
  isAwaited: !settings.click,
  clockIsAudio: false,
  milliseconds: 0,        // of audio that is rendered
  startedAt: 0,
  waiting: 0,             // how much is loaded, decoded, or done by workers now
  unrecorded: 0,          // real-time contexts without the option realtime
  losses: [],             // of the page, for the recording
};

const timers = new Map();
let timerCount = 0, nesting = 0;

const pageNow = performance.now.bind(performance);
export const firstDate = Date.now() - pageNow();

// The time in milliseconds. It goes on from where it was when rendering began.
export const clockNow = () => realTime.clockIsAudio ? realTime.startedAt + realTime.milliseconds : pageNow();

const dueOf = timer => timer.seconds === undefined ? timer.due : realTime.startedAt + timer.seconds * 1000;

function fire(timer) {
  nesting = timer.nesting;
  try {
    if (typeof timer.callback === 'function') timer.callback.apply(globalThis, timer.args);
    else (0, eval)(String(timer.callback)); // the callback may be a text of code
  } catch (fault) {
    if (globalThis.reportError) globalThis.reportError(fault); // as a browser would; the page goes on
    else console.error(fault);
  }
  nesting = 0;
}

const delayOf = (delay, level) => level > NESTED ? Math.max(LEAST_NESTED, delay) : delay;

// Runs a timer that is due: one that repeats stays, and is due again.
function runTimer(timer) {
  if (timer.period === undefined) timers.delete(timer.id);
  else {
    timer.nesting++;
    timer.due += delayOf(timer.period, timer.nesting);
  }
  fire(timer);
}

function arm(timer) {
  if (realTime.clockIsAudio) return;
  timer.native = native.setTimeout(() => {
    if (!timers.has(timer.id) || realTime.clockIsAudio) return;
    runTimer(timer);
    if (timers.has(timer.id)) arm(timer);
  }, Math.max(0, timer.due - pageNow()));
}

function keep(timer) {
  timer.id = ++timerCount;
  timers.set(timer.id, timer);
  arm(timer);
  return timer.id;
}

// A timer of the page: a function, or a text of code, and after how many milliseconds it is due.
export function addTimer(callback, milliseconds, isRepeated = false, args = []) {
  const level = nesting + 1, asked = Math.max(Math.trunc(+milliseconds) || 0, isRepeated ? 1 : 0);
  return keep({callback, args, due: clockNow() + delayOf(asked, level), period: isRepeated ? asked : undefined, nesting: level});
}

// A timer at the next frame of the screen. All of one frame come together.
export function addFrameTimer(callback) {
  const first = realTime.clockIsAudio ? realTime.startedAt : 0;
  const due = first + (Math.floor((clockNow() - first) / FRAME + 1e-9) + 1) * FRAME;
  return keep({callback: () => callback(clockNow()), args: [], due, nesting: 0});
}

// A timer at a time of the audio. It is due where the page's clock is at that time.
export function addAudioTimer(callback, seconds) {
  timers.set(++timerCount, {id: timerCount, callback, args: [], seconds, nesting: 0});
  return timerCount;
}

export function removeTimer(id) {
  const timer = timers.get(+id);
  if (!timer) return;
  native.clearTimeout(timer.native);
  timers.delete(timer.id);
}

// The timer that is due first, or null.
function firstTimer() {
  let first = null;
  for (const timer of timers.values()) if (!first || dueOf(timer) < dueOf(first)) first = timer;
  return first;
}

// When the next timer is due, in milliseconds of the audio. Infinity where there is none.
export function nextDue() {
  const first = firstTimer();
  return first ? dueOf(first) - realTime.startedAt : Infinity;
}

// From now on the page's clock is that of the audio.
export function holdClock() {
  realTime.isAwaited = true;
  if (realTime.clockIsAudio || !realTime.contexts.length) return;
  Object.assign(realTime, {startedAt: pageNow(), clockIsAudio: true});
  for (const timer of timers.values()) native.clearTimeout(timer.native);
}

// The audio waits until `release` is called.
export function wait() {
  realTime.waiting++;
  let isOver = false;
  return () => {
    if (!isOver) realTime.waiting--;
    isOver = true;
  };
}

// A promise that settles as this one does. The audio waits for it.
export function awaited(promise) {
  const release = wait();
  return native.then.call(promise, value => {
    release();
    return value;
  }, reason => {
    release();
    throw reason;
  });
}

// A turn of the page's event loop. setTimeout would wait for 4 milliseconds.
function turn() {
  return new Promise(done => {
    const channel = new MessageChannel();
    channel.port1.onmessage = () => {
      channel.port1.close();
      done();
    };
    channel.port2.postMessage(0);
  });
}

// Lets everything run that the page has ready, and what it loads.
async function settle() {
  await turn();
  for (const limit = pageNow() + LONGEST_WAIT; realTime.waiting && pageNow() < limit;) await turn();
  await turn();
}

export async function runDueTimers() {
  for (let count = 0; count < MOST_TIMERS; count++) {
    const due = firstTimer();
    if (!due || dueOf(due) > clockNow() + 1e-6) break;
    runTimer(due);
    await settle();
  }
  await settle();
}
