// Media: a media element of a real-time piece plays on the clock of the audio.
//
// Its file is decoded, and buffer sources play it where the page plays the element, so that the script has what the browser
// renders. The element itself stays silent. What a file cannot give, as a stream, is refused.

import {recordingOfContext} from './recording.js';

const MEMBERS = ['currentTime', 'paused', 'ended', 'volume', 'muted'];

const inherited = (element, name) => {
  let prototype = Object.getPrototypeOf(element);
  while (!Object.hasOwn(prototype, name)) prototype = Object.getPrototypeOf(prototype);
  return Object.getOwnPropertyDescriptor(prototype, name);
};

class MediaPlayer {
  constructor(context, element) {
    Object.assign(this, {context, element, gain: context.createGain(), source: null, buffer: null, isPlaying: false, since: 0});
    const [position, paused, , volume, muted] = MEMBERS.map(name => inherited(element, name).get.call(element));
    Object.assign(this, {position, volume, muted});
    element.pause();
    this.ready = this.load(element.currentSrc || element.src);
    this.replaceMembers();
    if (volume !== 1 || muted) this.setVolume({});
    if (!paused) this.play();
  }

  async load(address) {
    try {
      this.buffer = await this.context.decodeAudioData(await (await fetch(address)).arrayBuffer());
    } catch (fault) {
      recordingOfContext.get(this.context).lose('media-element-source');
    }
  }

  // What the page asks of the element is asked of this one.
  replaceMembers() {
    const put = (name, descriptor) => Object.defineProperty(this.element, name, {configurable: true, ...descriptor});
    put('play', {value: () => this.play()});
    put('pause', {value: () => this.pause()});
    put('currentTime', {get: () => this.time(), set: seconds => this.seek(+seconds)});
    put('paused', {get: () => !this.isPlaying});
    put('ended', {get: () => Boolean(this.buffer) && !this.isPlaying && this.position >= this.buffer.duration});
    put('volume', {get: () => this.volume, set: volume => this.setVolume({volume: +volume})});
    put('muted', {get: () => this.muted, set: muted => this.setVolume({muted: Boolean(muted)})});
  }

  tell(name) {
    this.element.dispatchEvent(new Event(name));
  }

  time() {
    if (!this.source) return this.position;
    const passed = this.position + this.context.currentTime - this.since;
    return this.element.loop ? passed % this.buffer.duration : Math.min(passed, this.buffer.duration);
  }

  async play() {
    if (this.isPlaying) return;
    this.isPlaying = true;
    this.tell('play');
    await this.ready;
    if (!this.isPlaying || this.source || !this.buffer) return;
    if (this.position >= this.buffer.duration) this.position = 0;
    this.begin();
    this.tell('playing');
  }

  begin() {
    const source = new globalThis.AudioBufferSourceNode(this.context, {buffer: this.buffer, loop: this.element.loop});
    source.connect(this.gain);
    source.onended = () => this.finish(source);
    this.since = this.context.currentTime;
    source.start(this.since, this.position);
    this.source = source;
  }

  finish(source) {
    if (source !== this.source) return; // it was stopped
    Object.assign(this, {source: null, isPlaying: false, position: this.buffer.duration});
    this.tell('ended');
  }

  stop() {
    const {source} = this;
    this.position = this.time();
    this.source = null;
    if (source) source.stop();
  }

  pause() {
    if (!this.isPlaying) return;
    this.stop();
    this.isPlaying = false;
    this.tell('pause');
  }

  seek(seconds) {
    const isSounding = Boolean(this.source);
    this.stop();
    this.position = Math.max(0, this.buffer ? Math.min(seconds, this.buffer.duration) : seconds);
    if (isSounding) this.begin();
    this.tell('seeked');
  }

  setVolume(given) {
    Object.assign(this, given);
    this.gain.gain.value = this.muted ? 0 : this.volume;
    this.tell('volumechange');
  }
}

// The node that plays what the element does.
export function playElement(context, element) {
  const recording = recordingOfContext.get(context), {gain} = new MediaPlayer(context, element);
  recording.lose('media-decoded');
  return Object.assign(gain, {mediaElement: element});
}
