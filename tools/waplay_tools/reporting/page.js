"use strict";
(function () {
  const COLUMNS = 800, HEIGHT = 200, REACH = 96, LEAST = 4, DEEPEST = -144, LETTER = 7.5;

  function bytesOf(text) {
    const read = atob(text), bytes = new Uint8Array(read.length);
    for (let place = 0; place < bytes.length; place++) bytes[place] = read.charCodeAt(place);
    return bytes;
  }

  // The samples of a WAV file that is in the page, channel by channel; 1.0 is `full`. None of one beside it.
  function samplesOf(audio) {
    if (!audio || !audio.src.startsWith("data:")) return null;
    const bytes = bytesOf(audio.dataset.file || audio.src.slice(audio.src.indexOf(",") + 1));
    const view = new DataView(bytes.buffer);
    let at = 12, channels = 0, bits = 0, isFloat = false;
    while (at + 8 <= bytes.length) {
      const name = String.fromCharCode(...bytes.subarray(at, at + 4)), size = view.getUint32(at + 4, true);
      if (name === "fmt " && !channels) {
        const tag = view.getUint16(at + 8, true);
        isFloat = tag === 3 || tag === 0xfffe && view.getUint16(at + 32, true) === 3;
        channels = view.getUint16(at + 10, true);
        bits = view.getUint16(at + 22, true);
      } else if (name === "data") {
        const read = split(view, at + 8, Math.min(size, bytes.length - at - 8), channels, isFloat ? "float" : bits);
        return { channels: read, full: isFloat ? 1 : 2 ** (bits - 1), isFloat: isFloat };
      }
      at += 8 + size + size % 2;
    }
    return null;
  }

  function split(view, start, size, channels, kind) {
    const width = kind === "float" ? 4 : kind / 8, count = Math.floor(size / (channels * width));
    const read = {
      8: at => view.getUint8(at) - 128,
      16: at => view.getInt16(at, true),
      24: at => view.getUint16(at, true) + 65536 * view.getInt8(at + 2),
      32: at => view.getInt32(at, true),
      float: at => Number.isFinite(view.getFloat32(at, true)) ? view.getFloat32(at, true) : 0,
    }[kind];
    return Array.from({ length: channels }, (_, channel) =>
      Float64Array.from({ length: count }, (_, frame) => read(start + (frame * channels + channel) * width)));
  }

  // What a drawing shows of some frames: the lowest and the highest sample, as parts of its scale.
  function ofSamples(samples, full) {
    return {
      length: samples.length, step: 1,
      range(from, to) {
        let low = samples[from], high = low;
        for (let at = from + 1; at < to; at++) {
          low = Math.min(low, samples[at]);
          high = Math.max(high, samples[at]);
        }
        return [low / full, high / full];
      },
    };
  }

  function ofColumns(text, length) {
    const numbers = new Int16Array(bytesOf(text).buffer), count = numbers.length / 2, step = length / count;
    return {
      length: length, step: step,
      range(from, to) {
        const first = Math.min(count - 1, Math.floor(from / step)), end = Math.max(first + 1, Math.min(count, Math.ceil(to / step)));
        let low = 32767, high = -32767;
        for (let at = first; at < end; at++) {
          low = Math.min(low, numbers[2 * at]);
          high = Math.max(high, numbers[2 * at + 1]);
        }
        return [low / 32767, high / 32767];
      },
    };
  }

  function differenceOf(one, two, channel) {
    const high = 1 - 1 / Math.min(...[one, two].filter(it => !it.isFloat).map(it => it.full), 2 ** 23);
    const part = (it, value) => it.isFloat ? Math.min(Math.max(value, -1), high) : value / it.full;
    const here = one.channels[channel], there = two.channels[channel], length = Math.min(here.length, there.length);
    return Float64Array.from({ length: length }, (_, at) => part(two, there[at]) - part(one, here[at]));
  }

  for (const root of document.querySelectorAll(".context")) begin(root);

  // Boxes that are wider than they show say so.
  function hint() {
    const boxes = [...document.querySelectorAll(".scroll")], wider = boxes.map(box => box.scrollWidth > box.clientWidth + 1);
    boxes.forEach((box, at) => box.classList.toggle("overflows", wider[at]));
  }
  hint();
  addEventListener("resize", hint);
  document.addEventListener("toggle", hint, true);

  function begin(root) {
    const wave = root.querySelector(".wave"), player = root.querySelector('audio[data-sound="sound"]');
    const otherPlayer = root.querySelector('audio[data-sound="other"]');
    if (!wave || !player) return;
    const tools = root.querySelector(".tools"), form = tools.querySelector("form");
    const status = tools.querySelector(".status"), asking = tools.querySelector(".asking");
    const selection = wave.querySelector(".selection"), playhead = wave.querySelector(".playhead");
    const frames = Number(wave.dataset.frames), rate = Number(wave.dataset.rate);
    const grouped = new Intl.NumberFormat("en-US");
    let first = 0, last = frames;

    const sound = samplesOf(player), other = samplesOf(otherPlayer);

    // What is drawn in each lane.
    function contentOf(drawing) {
      const data = drawing.dataset, channel = Number(data.channel), scale = Number(data.scale);
      const isDifference = data.sound === "difference";
      if (data.columns) {
        return { main: ofColumns(data.columns, frames), over: data.over ? ofColumns(data.over, frames) : null, scale: scale };
      }
      if (!sound) return null;
      if (isDifference) return { main: ofSamples(differenceOf(sound, other, channel), scale), over: null, scale: scale };
      const there = other && other.channels[channel];
      return {
        main: ofSamples(sound.channels[channel], sound.full * scale),
        over: there ? ofSamples(there.subarray(0, frames), other.full * scale) : null, scale: scale,
      };
    }
    const contents = new Map();
    for (const drawing of wave.querySelectorAll(".drawing")) contents.set(drawing, contentOf(drawing));

    // The outline of the frames in sight, of which each column holds from its lowest to its highest sample.
    function outline(content, height) {
      const end = Math.min(last, content.length), count = Math.max(0, Math.min(COLUMNS, Math.ceil((end - first) / content.step)));
      let there = "", back = "";
      for (let column = 0; column < count; column++) {
        const at = first + Math.floor(column * (end - first) / count), stop = first + Math.floor((column + 1) * (end - first) / count);
        const [low, high] = content.range(at, Math.max(stop, at + 1)).map(height);
        there += (column ? "V" + high : "M0," + high) + "H" + (column + 1);
        back = "V" + low + "H" + column + back;
      }
      const width = count && count * (last - first) / (end - first);
      return { path: count ? there + back + "Z" : "", width: width || 1 };
    }
    const rounded = value => Math.round(value * 10) / 10;
    const height = part => rounded(HEIGHT / 2 - part * REACH);

    function decibelOutline(content, scale) {
      const depth = value => rounded(value ? Math.max(0, HEIGHT * Math.max(DEEPEST, 20 * Math.log10(value)) / DEEPEST) : HEIGHT);
      const end = Math.min(last, content.length), count = Math.max(0, Math.min(COLUMNS, Math.ceil((end - first) / content.step)));
      let path = "M0," + HEIGHT;
      for (let column = 0; column < count; column++) {
        const at = first + Math.floor(column * (end - first) / count), stop = first + Math.floor((column + 1) * (end - first) / count);
        const [low, high] = content.range(at, Math.max(stop, at + 1));
        path += "V" + depth(Math.max(-low, high) * scale) + "H" + (column + 1);
      }
      const width = count && count * (last - first) / (end - first);
      return { path: count ? path + "V" + HEIGHT + "Z" : "", width: width || 1 };
    }

    function drawLane(drawing, content) {
      const isDifference = drawing.dataset.sound === "difference";
      const shape = isDifference ? decibelOutline(content.main, content.scale) : outline(content.main, height);
      drawing.setAttribute("viewBox", "0 0 " + shape.width + " " + HEIGHT);
      drawing.querySelector(".envelope").setAttribute("d", shape.path);
      const zero = drawing.querySelector(".zero"), limit = drawing.querySelector(".tolerance");
      if (zero) zero.setAttribute("d", "M0," + HEIGHT / 2 + "H" + shape.width);
      if (limit) limit.setAttribute("d", limit.getAttribute("d").replace(/H.*/, "H" + shape.width));
      const over = drawing.querySelector(".other");
      if (over && content.over) {
        const its = outline(content.over, height);
        over.setAttribute("d", its.path);
        over.setAttribute("transform", "scale(" + shape.width / its.width + " 1)");
      }
    }

    const place = frame => 100 * (frame - first) / (last - first);

    function draw() {
      const wide = wave.clientWidth; // read before anything changes, as the page is laid out for it
      for (const [drawing, content] of contents) {
        if (content) drawLane(drawing, content);
      }
      for (const stretched of wave.querySelectorAll(".stretched")) {
        const width = stretched.dataset.width / frames, tall = stretched.viewBox.baseVal.height;
        stretched.setAttribute("viewBox", first * width + " 0 " + (last - first) * width + " " + tall);
      }
      for (const mark of wave.querySelectorAll(".placed")) {
        const low = Math.min(frames, Number(mark.dataset.low));
        const high = "high" in mark.dataset ? Math.min(frames, Number(mark.dataset.high)) : low;
        mark.style.display = high < first || low > last ? "none" : "";
        const from = Math.max(0, place(low)), to = Math.min(100, place(high));
        if (mark.localName === "line") {
          mark.setAttribute("x1", from + "%");
          mark.setAttribute("x2", from + "%");
        } else {
          mark.setAttribute("x", from + "%");
          if (mark.localName !== "use") mark.setAttribute("width", Math.max(0.02, to - from) + "%");
          if (mark.localName === "svg") name(mark, (to - from) / 100 * wide);
        }
      }
      label();
      movePlayhead();
    }

    // The name of a note stands in it where it has room, which is so many pixels.
    function name(note, room) {
      const told = note.dataset.name, text = note.querySelector("text");
      const shown = room > LETTER * told.length + 6 ? told : "";
      if (text.textContent !== shown) text.textContent = shown;
    }

    function label() {
      const seconds = frame => (frame / rate).toLocaleString("en-US", { maximumFractionDigits: 6 }) + "\u00a0s";
      for (const at of [0, 50, 100]) {
        const frame = Math.floor(first + (last - first) * at / 100), [one, two] = wave.querySelectorAll(".time .at-" + at);
        one.textContent = grouped.format(frame);
        two.textContent = seconds(frame);
      }
      form.elements.first.value = first;
      form.elements.last.value = last;
      status.textContent = "Shown: frames " + grouped.format(first) + " to " + grouped.format(last) + " of " + grouped.format(frames) +
        (first === 0 && last === frames ? ", the whole" : "");
    }

    function show(from, to) {
      const width = Math.max(Math.min(LEAST, frames), Math.min(frames, Math.round(to - from)));
      first = Math.max(0, Math.min(frames - width, Math.round(from)));
      last = first + width;
      draw();
    }

    const zoom = factor => {
      const middle = (first + last) / 2, half = (last - first) * factor / 2;
      show(middle - half, middle + half);
    };
    const move = part => show(first + Math.round(part * (last - first)), last + Math.round(part * (last - first)));
    const acts = {
      in: () => zoom(0.5), out: () => zoom(2), earlier: () => move(-0.25), later: () => move(0.25), whole: () => show(0, frames),
      start: () => show(0, last - first), end: () => show(frames - (last - first), frames),
    };
    const keys = { "+": "in", "=": "in", "-": "out", ArrowLeft: "earlier", ArrowRight: "later", 0: "whole", Home: "start", End: "end" };

    // What is dragged over, from one end to the other, is what is shown then.
    let begun = null, lane = null;
    const part = event => {
      const box = wave.getBoundingClientRect();
      return Math.max(0, Math.min(1, (event.clientX - box.left) / box.width));
    };
    wave.addEventListener("pointerdown", event => {
      if (event.button !== 0) return;
      begun = part(event);
      lane = event.target.closest(".lane");
      wave.setPointerCapture(event.pointerId);
    });
    wave.addEventListener("pointermove", event => {
      if (begun === null) return;
      const ends = [begun, part(event)].sort((a, b) => a - b);
      selection.hidden = false;
      selection.style.left = 100 * ends[0] + "%";
      selection.style.width = 100 * (ends[1] - ends[0]) + "%";
    });
    wave.addEventListener("pointerup", event => {
      if (begun === null) return;
      const ends = [begun, part(event)].sort((a, b) => a - b), width = last - first;
      begun = null;
      selection.hidden = true;
      if (ends[1] - ends[0] < 0.005) {
        player.currentTime = (first + ends[0] * width) / rate;
        const drawing = asking && lane && lane.querySelector(".drawing");
        if (drawing) explain(Math.min(last - 1, Math.floor(first + ends[0] * width)), Number(drawing.dataset.channel));
      } else {
        show(first + ends[0] * width, first + ends[1] * width);
      }
    });
    wave.addEventListener("pointercancel", () => {
      begun = null;
      selection.hidden = true;
    });
    wave.addEventListener("keydown", event => {
      if (!(event.key in keys) || event.ctrlKey || event.altKey || event.metaKey || event.target !== wave) return;
      event.preventDefault();
      acts[keys[event.key]]();
    });
    for (const button of tools.querySelectorAll("[data-do]")) {
      button.addEventListener("click", () => acts[button.dataset.do]());
    }
    form.addEventListener("submit", event => {
      event.preventDefault();
      show(Number(form.elements.first.value), Number(form.elements.last.value));
    });

    // The command that says why a sample is what it is.
    function explain(frame, channel) {
      const answer = tools.querySelector(".answered");
      asking.elements.frame.value = frame;
      asking.elements.channel.value = channel;
      answer.querySelector("code").textContent = asking.dataset.command + " " + frame + " " + channel + " -o why.html";
      answer.hidden = false;
    }
    if (asking) {
      asking.addEventListener("submit", event => {
        event.preventDefault();
        explain(Number(asking.elements.frame.value), Number(asking.elements.channel.value));
      });
    }

    function movePlayhead() {
      const at = place(player.currentTime * rate);
      playhead.hidden = player.currentTime === 0 || at < 0 || at > 100;
      playhead.style.left = at + "%";
      if (!player.paused) requestAnimationFrame(movePlayhead);
    }
    for (const name of ["play", "seeked", "pause", "ended"]) player.addEventListener(name, movePlayhead);

    // Frames in tables lead to their place.
    for (const text of root.querySelectorAll("span.frame")) {
      const button = document.createElement("button"), frame = Number(text.dataset.frame);
      button.type = "button";
      button.className = "frame";
      button.textContent = text.textContent;
      button.setAttribute("aria-label", "Show frame " + text.textContent);
      button.addEventListener("click", () => {
        const half = Math.max(LEAST, Math.min(last - first, Math.ceil(frames / 8)) / 2);
        show(frame - half, frame + half);
        wave.focus();
      });
      text.replaceWith(button);
    }

    wave.tabIndex = 0;
    const hint = tools.querySelector(".hint");
    hint.id = root.id + "-keys";
    wave.setAttribute("aria-describedby", hint.id);
    tools.hidden = false;
    draw();
  }
})();
