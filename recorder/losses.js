// Losses: what a script cannot keep of a page as it is, kind by kind.
//
// The grade says what became of the sound:
//   refused   waplay refuses the call, or the script stands for something else than the page did
//   silent    the browser rendered nothing but zeros
//   heard     a number or a time is rounded so far that it may be heard
//   frozen    the sound of a node is played in its place
//   lowered   a call was rewritten into others that sound the same (but with the option `plain`)
//   rounded   a number or a time is the nearest one that a script can hold
//   exact     nothing is lost; the script says the same in other words
//
// A rounded kind that `isMeasured` has errors of the sound: from HEARD_FROM on its grade is `heard`.

export const GRADES = ['refused', 'silent', 'heard', 'frozen', 'lowered', 'rounded', 'exact'];
const HEARD_FROM = 2 ** -16;

export const LOSS_KINDS = {
  // Numbers and times.
  'value-rounded': {grade: 'rounded', says: 'values that are no multiple of 2^-24'},
  'sample-rounded': {grade: 'rounded', says: 'samples that are no multiple of 2^-24'},
  'value-range': {grade: 'refused', says: 'a value of 128 or more, or below -128; the nearest one stands in the script'},
  'sample-range': {grade: 'refused', says: 'samples of 128 or more, or below -128; the nearest ones stand in the script'},
  'not-finite': {grade: 'refused', says: 'a number that is not finite; 0 stands in the script'},
  'time-next-frame': {grade: 'exact', says: 'times between two frames; the next frame means the same'},
  'time-near-frame': {grade: 'exact', says: 'times as near to a frame as a rounding; that frame is taken'},
  'time-rounded': {grade: 'rounded', says: 'times between two frames; the nearest frame is taken'},
  'delay-fraction': {grade: 'heard',
    says: 'A DELAY OF A FRACTION OF A FRAME OR ONE THAT MOVES: chorus, flanger and tuned strings change'},

  // Calls in another place or another form.
  'creation-option': {grade: 'exact', says: 'playbackRate set before start; an option of the creation'},
  'reordered': {grade: 'exact', says: 'a buffer, a loop or a curve set again or after start at the same time; set once, before it'},
  'asset-decoded': {grade: 'exact', says: 'decodeAudioData; the decoded samples are kept'},
  'buffer-written': {grade: 'exact',
    says: 'buffers written after a source acquired them; it keeps what it acquired, where Chromium may play what is written'},
  'call-left-out': {grade: 'exact',
    says: 'calls that the browser refused for their arguments, that change nothing, or that concern another context; left out'},
  'coefficients-scaled': {grade: 'exact', says: 'filter coefficients times one number on both sides'},
  'coefficients-rounded': {grade: 'rounded', isMeasured: true,
    says: 'filter coefficients that are no multiple of 2^-24; the error is that of the response'},
  'feedback-rounded': {grade: 'rounded', isMeasured: true,
    says: 'filters that feed back what is rounded to 2^-24; the error is the most that this can add up to'},

  'browser-rounded': {grade: 'exact',
    says: 'filters that Chromium is less exact in than the script; the error is its own, for a sound of full scale'},
  'browser-target': {grade: 'exact',
    says: 'targets that Chromium begins a frame off, or takes for reached too early; the error is its own, of the value'},

  // Rewritten calls.
  'lowered-ramp': {grade: 'lowered', says: 'linear ramps between frames; curves and values'},
  'lowered-curve': {grade: 'lowered', says: 'curves between frames; curves with one point for each frame, or with two for each of the page'},
  'lowered-exponential': {grade: 'lowered', says: 'exponential ramps; curves that are within 2^-25'},
  'lowered-target': {grade: 'lowered', says: 'setTargetAtTime; curves that are within 2^-25, up to the next event'},
  'lowered-hold': {grade: 'lowered', says: 'cancels and holds between frames or over a rewritten event; written out'},
  'lowering-failed': {grade: 'refused', says: 'an event next to a rewritten one in a way that is not rewritten'},
  'baked-source': {grade: 'lowered', says: 'sources rendered alone by the browser; their samples are kept'},
  'lowered-biquad': {grade: 'lowered', says: 'biquads with steady parameters; IIR filters by the standard\'s formulas'},
  'lowered-sections': {grade: 'lowered', says: 'filters of an order above 2; split into sections of order 2'},
  'guarded-filter': {grade: 'lowered', says: 'filters run 32 times louder inside, with a gain behind them'},
  'frozen-node': {grade: 'frozen', says: 'nodes that a script has no word for; the sound that came out of them is played in their place'},
  'frozen-voices': {grade: 'frozen',
    says: 'voices that have ended, of a piece that is too long for a script; what they put out is played in their place'},
  'frozen-loop': {grade: 'frozen', says: 'loops with such a node; frozen whole, and as long as Chromium has them'},
  'frozen-mixed': {grade: 'heard',
    says: 'frozen nodes with fewer channels now and then, which have the most of them in the script; heard where these are not mono and stereo'},
  'freezing-failed': {grade: 'refused', says: 'nodes that are not frozen, as their sound has no room: in 32 channels, or in the buffers'},
  'frozen-off': {grade: 'exact', isMeasured: true,
    says: 'how far a second rendering, in which frozen nodes were listened to, is from the first one'},
  'loop-longer': {grade: 'heard',
    says: 'A LOOP THROUGH A DELAY is a quantum longer in Chromium than in the recommendation; the option --loops-as-browser makes it so'},
  'loop-as-browser': {grade: 'lowered', says: 'loops that Chromium has a quantum longer; a delay of a quantum stands where it does'},
  'media-decoded': {grade: 'lowered', says: 'media elements; their files are decoded, and played on the clock of the audio'},
  'lowered-panner': {grade: 'lowered', says: 'panners; gains by the standard\'s formulas'},
  'lowered-convolver': {grade: 'lowered', says: 'convolvers; scaled, one for each channel and each part of a long response'},
  'lowered-analyser': {grade: 'lowered', says: 'analysers; gains of 1, as they pass their input on'},

  // What a script cannot say.
  'silent': {grade: 'silent', says: 'THE BROWSER RENDERED SILENCE: no sample is other than 0'},
  'call-after-end': {grade: 'refused', says: 'calls of a real-time piece after the end of its rendering; they are not in its sound'},
  'worker-clock': {grade: 'refused', says: 'a worker whose clock is its own; what it does comes at another time of the piece'},
  'filter-lost': {grade: 'refused', says: 'a filter that is another one with its coefficients rounded to 2^-24'},
  'level-range': {grade: 'refused', says: 'a filter whose output is 128 or more, where waplay saturates'},
  'call-while-rendering': {grade: 'refused', says: 'calls made while rendering runs, outside a suspension; no frame is known for them'},
  'second-curve': {grade: 'refused',
    says: 'another curve of a WaveShaperNode after its first one; browsers take it, waplay does not'},
  'late-response': {grade: 'refused', says: 'the response of a convolver, set at a later time than that of its creation'},
  'context-rate': {grade: 'refused', says: 'a rate that is no whole number'},
  'context-limit': {grade: 'refused',
    says: 'a context that waplay refuses: 1 to 32 channels, 8,000 to 96,000 frames a second; or one whose quanta have other than 32, ' +
      '64, 128, 256, 512 or 1,024 frames, of which the script has 128'},
  'script-length': {grade: 'refused', says: 'the script has more than 16,777,216 bytes'},
  'not-finished': {grade: 'refused', says: 'rendering was started and did not come to its end'},
  'real-time-pause': {grade: 'refused', says: 'suspend or close of a real-time context; the script goes on'},
  'real-time-second': {grade: 'refused', says: 'a second real-time context; only the first one with calls is rendered'},
  'timer-late': {grade: 'exact', says: 'timers run at the next quantum of the audio clock, up to a quantum late'},
  'recorder-fault': {grade: 'refused', says: 'a fault of the recorder; calls may be missing'},

  // Refused with the page and in the script alike.
  'destination-output': {grade: 'exact', says: 'an output of the destination is used; both the browser and waplay refuse it'},
};

// What waplay refuses by a feature word. The word is the kind of the loss.
const FEATURES = {
  'oscillator': 'OscillatorNode',
  'periodic-wave': 'PeriodicWave',
  'biquad': 'BiquadFilterNode',
  'stereo-panner': 'StereoPannerNode', 'panner': 'PannerNode', 'listener': 'parameters of the listener',
  'compressor': 'DynamicsCompressorNode', 'analyser': 'AnalyserNode',
  'normalization': 'a convolver that normalizes its response', 'response-channels': 'a response of 2 or 4 channels',
  'long-response': 'a response of more than 16,384 frames', 'loud-response': 'a response with samples beyond 2',
  'script-processor': 'ScriptProcessorNode', 'audio-worklet': 'AudioWorkletNode',
  'media-element-source': 'MediaElementAudioSourceNode', 'media-stream-source': 'MediaStreamAudioSourceNode',
  'media-stream-track-source': 'MediaStreamTrackAudioSourceNode',
  'media-stream-destination': 'MediaStreamAudioDestinationNode',
  'exponential-ramp': 'exponentialRampToValueAtTime',
  'set-target': 'setTargetAtTime',
  'oversample': 'oversampling of a WaveShaperNode',
  'resampling': 'a buffer of another rate than the context\'s',
  'playback-rate': 'a playback rate that is no whole number from 1 on',
  'playback-rate-automation':
    'a playbackRate that is automated, set late or connected to',
  'detune': 'detune of a buffer source',
  'loop-change': 'a loop changed after the start', 'late-buffer': 'a buffer set after the start',
  'long-delay': 'a delay of more than 16 seconds',
  'asset-size': 'a buffer of more than 67,108,864 bytes; silence stands for it',
  'node-limit': 'more than 1,024 nodes', 'connection-limit': 'more than 8,192 connections',
  'buffer-limit': 'more than 134,217,728 samples in all buffers; a source that would need more is not baked', 'delay-limit': 'more than 4,194,304 frames in all delays',
};

for (const word of Object.keys(FEATURES))
  LOSS_KINDS[word] = {grade: 'refused', feature: true, says: FEATURES[word]};

// The grade of a loss of this kind with this error.
export function gradeOf(kind, error) {
  const {grade, isMeasured} = LOSS_KINDS[kind];
  return isMeasured && error >= HEARD_FROM ? 'heard' : grade;
}
