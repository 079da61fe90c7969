// Settings: what the page or the tool asks for before the recorder is loaded, as globalThis.waplayRecorderOptions.
//
//   plain      leaves what a script has no word for as it is, where else it is rewritten
//   loops      makes loops through delays as long as the browser has them, see loops.js
//   seconds    writes scripts of version 2, whose times are seconds
//   realtime   the seconds of a real-time piece to record
//   click      says that the piece begins with a click, before which `hold` is called

const asked = {plain: false, loops: false, seconds: false, realtime: 0, click: false, ...globalThis.waplayRecorderOptions};

export const settings = {...asked, lower: !asked.plain};
