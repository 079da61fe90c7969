// A document that is about to go away hands over what was recorded of it. Its messages are what
// `take_out` in results.py asks for, in that order. Whoever loads the next document waits for them.
(() => {
  const tell = globalThis.waplayLeaving, later = globalThis.setTimeout;
  delete globalThis.waplayLeaving;
  if (!tell) return;
  const say = message => tell(JSON.stringify(message));
  const progress = () => globalThis.waplayRecorder ? waplayRecorder.progress() : {started: 0};

  async function handOver(number) {
    const result = await waplayRecorder.result(number, '@');
    say({value: result});
    const chunks = async (count, chunkFrom) => {
      for (let first = 0; first < count;) {
        const text = await chunkFrom(first);
        say({value: text});
        first += atob(text).length / 4;
      }
    };
    if (!result.started) return;
    for (const [place, {channels, length}] of result.assets.entries())
      await chunks(channels * length, first => waplayRecorder.assetChunk(place, first));
    const {channels, length} = result.rendered || {channels: 0};
    for (let channel = 0; channel < channels; channel++)
      await chunks(length, first => waplayRecorder.renderedChunk(channel, first));
  }

  let isLeaving = false, isHandedOver = false;
  async function leave() {
    if (isLeaving) return;
    isLeaving = true;
    const {started, contexts} = progress();
    say({leaving: started && contexts});
    while (progress().started > progress().complete) await new Promise(done => later(done, 20));
    for (let number = 1; started && number <= contexts; number++) await handOver(number);
    isLeaving = false;
    isHandedOver = true;
  }

  // A document that is not loaded yet has no beforeunload.
  if (globalThis.navigation) navigation.addEventListener('navigate', ({destination}) => {
    if (!destination.sameDocument) leave();
  });
  addEventListener('beforeunload', leave);
  addEventListener('pagehide', () => say({gone: isHandedOver ? 0 : progress().started}));
})();
