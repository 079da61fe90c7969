// Actions: what a person does to a page while it plays, as a text of JavaScript says it.
//
// The text is the body of an async function. Its waits are on the clock of the page, which is that of the audio in a
// real-time piece. Events are made by scripts, so what asks for a trusted one does not hear them.

const AsyncFunction = (async () => {}).constructor;

function elementOf(selector) {
  const found = document.querySelector(selector);
  if (!found) throw new Error(`the actions find no element ${selector}`);
  return found;
}

// Where a pointer is in an element, as fractions of its width and height.
function placeIn(element, x, y) {
  const box = element.getBoundingClientRect();
  return {clientX: box.left + x * box.width, clientY: box.top + y * box.height};
}

// A pointer event and the mouse event that goes with it.
function point(name, selector, x = 0.5, y = 0.5) {
  const element = elementOf(selector), buttons = name === 'up' ? 0 : 1;
  const words = {bubbles: true, cancelable: true, composed: true, buttons, ...placeIn(element, x, y)};
  element.dispatchEvent(new PointerEvent(`pointer${name}`, {...words, pointerId: 1, isPrimary: true, pointerType: 'mouse'}));
  element.dispatchEvent(new MouseEvent(`mouse${name}`, words));
}

function strike(name, key) {
  const code = /^[a-z]$/i.test(key) ? `Key${key.toUpperCase()}` : /^\d$/.test(key) ? `Digit${key}` : key === ' ' ? 'Space' : key;
  const target = document.activeElement || document.body || document;
  target.dispatchEvent(new KeyboardEvent(name, {key, code, bubbles: true, cancelable: true, composed: true}));
}

const wait = seconds => new Promise(done => setTimeout(done, 1000 * seconds));

// What the text may call.
const ACTIONS = {
  wait,
  click(selector) { elementOf(selector).click(); },
  keyDown(key) { strike('keydown', key); },
  keyUp(key) { strike('keyup', key); },
  async key(key, seconds = 0.1) {
    strike('keydown', key);
    await wait(seconds);
    strike('keyup', key);
  },
  pointerDown(selector, x, y) { point('down', selector, x, y); },
  pointerMove(selector, x, y) { point('move', selector, x, y); },
  pointerUp(selector, x, y) { point('up', selector, x, y); },
  input(selector, value) {
    const element = elementOf(selector);
    element.value = value;
    for (const name of ['input', 'change']) element.dispatchEvent(new Event(name, {bubbles: true}));
  },
};

// Begins to do what the text says.
export function act(text) {
  const run = new AsyncFunction(...Object.keys(ACTIONS), text);
  return run(...Object.values(ACTIONS));
}
