// Workers: in a real-time piece their timers are on the page's clock, too.
//
// A worker gets a script in front of its own. It asks the page for each timer, and runs its callback when the page
// says so. While a worker does something, the audio waits: after each message the page asks for an answer, which
// comes behind all that the worker has sent.

import {addTimer, clockNow, realTime, removeTimer, wait} from './clock.js';

const MARK = 'waplay-clock'; // what messages of the recorder have

// What runs in the worker. It has to stand alone, as its text is given to the worker.
function workerSide(mark, base) {
  const post = self.postMessage.bind(self), nativeNow = performance.now.bind(performance);
  const callbacks = new Map();
  let count = 0, told = {now: 0, isHeld: false}, toldAt = nativeNow();
  const now = () => told.isHeld ? told.now : told.now + nativeNow() - toldAt;
  const tell = message => post({[mark]: message});
  const add = (callback, delay, isRepeated, args) => {
    callbacks.set(++count, {callback, args, isRepeated});
    tell({add: count, delay: +delay || 0, isRepeated});
    return count;
  };
  const remove = id => {
    if (callbacks.delete(+id)) tell({remove: +id});
  };
  const run = id => {
    const timer = callbacks.get(id);
    if (!timer) return;
    if (!timer.isRepeated) callbacks.delete(id);
    try {
      if (typeof timer.callback === 'function') timer.callback.apply(self, timer.args);
      else (0, eval)(String(timer.callback));
    } catch (fault) {
      self.reportError(fault);
    }
  };
  self.addEventListener('message', event => {
    const message = event.data && event.data[mark];
    if (!message) return;
    event.stopImmediatePropagation();
    told = message;
    toldAt = nativeNow();
    if (message.fire) run(message.fire);
    if (message.turn) tell({done: message.turn});
  });
  self.setTimeout = (callback, delay, ...args) => add(callback, delay, false, args);
  self.setInterval = (callback, delay, ...args) => add(callback, delay, true, args);
  self.requestAnimationFrame = callback => add(() => callback(now()), 1000 / 60, false, []);
  self.clearTimeout = self.clearInterval = self.cancelAnimationFrame = remove;
  performance.now = now;
  const firstDate = Date.now() - nativeNow();
  Date.now = () => Math.floor(firstDate + now());
  if (!base) return;
  // Addresses in the worker's script are meant from where it stands.
  const absolute = address => typeof address === 'string' || address instanceof URL ? new URL(address, base).href : address;
  const {importScripts, fetch} = self;
  self.importScripts = (...addresses) => importScripts.apply(self, addresses.map(absolute));
  self.fetch = (address, ...others) => fetch.call(self, absolute(address), ...others);
  Object.defineProperty(self, 'location', {value: new URL(base), configurable: true});
}

const addressOf = text => URL.createObjectURL(new Blob([text], {type: 'text/javascript'}));

// The text at an address. It is read at once, as a page may take the address away in the next line.
function textAt(address) {
  const request = new XMLHttpRequest();
  request.open('GET', address, false);
  request.send();
  if (request.status !== 200) throw new Error(`${address}: ${request.status}`);
  return request.responseText;
}

// The address of a script that puts ours in front of the worker's.
function addressWithClock(given, options) {
  const address = new URL(given, document.baseURI), isBlob = address.protocol === 'blob:' || address.protocol === 'data:';
  const isModule = Boolean(options && options.type === 'module');
  const base = isBlob || isModule ? '' : address.href;
  const ours = addressOf(`(${workerSide})(${JSON.stringify(MARK)}, ${JSON.stringify(base)});`);
  const theirs = isModule && !isBlob ? address.href : addressOf(textAt(address.href));
  if (isModule) return addressOf(`import ${JSON.stringify(ours)};\nimport ${JSON.stringify(theirs)};`);
  return addressOf(`importScripts(${JSON.stringify(ours)});\nimportScripts(${JSON.stringify(theirs)});`);
}

// The page's side of a worker.
class Clocked {
  constructor(worker, post) {
    Object.assign(this, {worker, post, turns: 0, releases: new Map(), timers: new Map()});
    worker.addEventListener('message', event => this.hear(event));
    worker.addEventListener('error', () => this.letGo());
    this.askForAnswer();
  }

  // Sends the time, and what is asked for.
  send(message) {
    this.post({[MARK]: {now: clockNow(), isHeld: realTime.clockIsAudio, ...message}});
  }

  // The audio waits until the worker has done all that it was sent.
  askForAnswer(message) {
    this.releases.set(++this.turns, wait());
    this.send({...message, turn: this.turns});
  }

  hear(event) {
    const message = event.data && event.data[MARK];
    if (!message) return;
    event.stopImmediatePropagation();
    if (message.add) {
      const id = addTimer(() => this.askForAnswer({fire: message.add}), message.delay, message.isRepeated);
      this.timers.set(message.add, id);
    }
    if (message.remove) removeTimer(this.timers.get(message.remove));
    if (message.done) this.release(message.done);
  }

  release(turn) {
    const release = this.releases.get(turn);
    this.releases.delete(turn);
    if (release) release();
  }

  letGo() {
    for (const turn of [...this.releases.keys()]) this.release(turn);
  }

  end() {
    this.letGo();
    for (const id of this.timers.values()) removeTimer(id);
  }
}

const clockedOf = new WeakMap(); // Worker -> Clocked

// A worker whose script cannot be reached keeps its own clock, and so do shared ones.
function replaceConstructor(inner) {
  return new Proxy(inner, {
    construct(target, [address, ...others], newTarget) {
      let found = address;
      try {
        found = addressWithClock(address, others[0]);
      } catch (fault) {
        realTime.losses.push('worker-clock');
      }
      const worker = Reflect.construct(target, [found, ...others], newTarget);
      if (found !== address) clockedOf.set(worker, new Clocked(worker, message => post.call(worker, message)));
      return worker;
    },
  });
}

let post;

export function replaceWorkers() {
  if (!globalThis.Worker) return;
  const {prototype} = Worker, {terminate} = prototype;
  post = prototype.postMessage;
  prototype.postMessage = function postMessage(...args) {
    const clocked = clockedOf.get(this);
    if (clocked) clocked.send({});
    post.apply(this, args);
    if (clocked) clocked.askForAnswer();
  };
  prototype.terminate = function end() {
    const clocked = clockedOf.get(this);
    if (clocked) clocked.end();
    terminate.call(this);
  };
  globalThis.Worker = replaceConstructor(Worker);
  if (globalThis.SharedWorker)
    globalThis.SharedWorker = new Proxy(SharedWorker, {
      construct(target, args, newTarget) {
        realTime.losses.push('worker-clock');
        return Reflect.construct(target, args, newTarget);
      },
    });
}
