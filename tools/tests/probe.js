// What is wrong with how a page is laid out: a list of sentences. The answer is that of the last expression.
(() => {
  const wrong = [], width = document.documentElement.clientWidth;
  const name = element => element.localName + (element.className.baseVal || element.className ? "." + (element.className.baseVal || element.className) : "");
  const isUnseen = element => element.closest(".unseen") || !element.checkVisibility();
  const isHeadOfNarrow = element => element.closest("thead") && getComputedStyle(element.closest("thead")).clipPath !== "none";

  if (document.scrollingElement.scrollWidth > width) wrong.push("the page is wider than the window: " + document.scrollingElement.scrollWidth);
  for (const element of document.body.querySelectorAll("*")) {
    if (isUnseen(element) || isHeadOfNarrow(element) || element.closest("defs, script, style")) continue;
    const box = element.getBoundingClientRect(), style = getComputedStyle(element);
    const outer = element.parentElement.closest(".scroll");
    if (box.width && !outer && !element.closest(".drawing") && (box.right > width + 1 || box.left < -1)) {
      wrong.push(name(element) + " reaches out of the window: " + box.left + " to " + box.right);
    }
    if (["hidden", "clip"].includes(style.overflowX) && !(element instanceof SVGElement) && element.scrollWidth > element.clientWidth + 1) {
      wrong.push(name(element) + " is cut off");
    }
  }

  // The boxes of texts and of controls, as far as they are in sight.
  const boxes = [];
  const add = (rect, owner, what, text) => {
    const scroll = owner.closest(".scroll"), bounds = scroll ? scroll.getBoundingClientRect() : { left: -1e9, right: 1e9 };
    const box = { left: Math.max(rect.left, bounds.left), right: Math.min(rect.right, bounds.right), top: rect.top, bottom: rect.bottom };
    if (box.right - box.left > 1 && box.bottom - box.top > 1) boxes.push({ ...box, owner, what, text });
  };
  const walker = document.createTreeWalker(document.body, NodeFilter.SHOW_TEXT);
  for (let node = walker.nextNode(); node; node = walker.nextNode()) {
    const owner = node.parentElement;
    if (!node.data.trim() || isUnseen(owner) || isHeadOfNarrow(owner) || owner.closest("script, style, defs")) continue;
    const range = document.createRange();
    range.selectNodeContents(node);
    for (const rect of range.getClientRects()) add(rect, owner, "text", node.data.trim().slice(0, 30));
  }
  for (const control of document.querySelectorAll("button:not(.frame), input, audio")) {
    if (control.checkVisibility()) add(control.getBoundingClientRect(), control, "control", name(control));
  }
  boxes.sort((a, b) => a.top - b.top);
  boxes.forEach((a, at) => {
    for (let next = at + 1; next < boxes.length && boxes[next].top < a.bottom; next++) {
      const b = boxes[next];
      const across = Math.min(a.right, b.right) - Math.max(a.left, b.left), down = Math.min(a.bottom, b.bottom) - b.top;
      const isOne = a.owner === b.owner || a.what !== b.what && (a.owner.contains(b.owner) || b.owner.contains(a.owner));
      if (across > 1 && down > 3 && !isOne) wrong.push("'" + a.text + "' and '" + b.text + "' overlap");
    }
  });

  // Contrast of texts with what is behind them: 4.5 or more.
  const channels = color => color.match(/[\d.]+/g).map(Number);
  const luminance = color => {
    const [r, g, b] = channels(color).slice(0, 3).map(it => it / 255).map(it => it <= 0.04045 ? it / 12.92 : ((it + 0.055) / 1.055) ** 2.4);
    return 0.2126 * r + 0.7152 * g + 0.0722 * b;
  };
  const ground = element => {
    for (let it = element; it; it = it.parentElement) {
      const color = getComputedStyle(it).backgroundColor, parts = channels(color);
      if (parts.length < 4 || parts[3] > 0) return color;
    }
    return getComputedStyle(document.documentElement).backgroundColor;
  };
  const seen = new Set();
  for (const { owner, what, text } of boxes) {
    if (what !== "text") continue;
    const style = getComputedStyle(owner), color = owner instanceof SVGElement ? style.fill : style.color;
    const lights = [luminance(color), luminance(ground(owner))].sort((a, b) => b - a), contrast = (lights[0] + 0.05) / (lights[1] + 0.05);
    if (contrast < 4.5 && !seen.has(color)) wrong.push("'" + text + "' has a contrast of " + contrast.toFixed(2));
    seen.add(color);
  }
  return { wrong, boxes: boxes.length, ground: getComputedStyle(document.body).backgroundColor };
})()
