// A worker of the pool: fetches the file of a window, decodes the window, and gives its pixels.
//
// The first message has the module; it may come behind the first jobs, which wait for it. Each other message is a job.
// While one job's file is on its way another's is decoded.

import { bytesAt } from './faults.js';
import { library } from './jk.js';
import { pixelsOf, shades, wholeRange } from './pixels.js';
import { SAMPLE } from './sample.js';

// So often a small image is decoded before anything is asked for: a browser compiles a function where it is called
// first, and once more, and better, where it was called often.
const WARM_UPS = 20;

let giveModule;
let isAsked = false;
const module = new Promise((done) => { giveModule = done; });
let calls = module.then(library);

// Decodes a small image as long as nothing is asked for, so that the first tile comes sooner.
async function warmUp() {
  const jk = await calls;
  for (let times = 0; times < WARM_UPS && !isAsked; times++) {
    jk.decode(SAMPLE, 0);
    await new Promise((done) => { setTimeout(done); });
  }
}

// A library that was stopped in the middle of a call is of no use any more.
function renew() {
  calls = module.then(library);
}

async function windowOf({ url, reduce, x, y, width, height, range, isKept }) {
  const file = await bytesAt(url);
  const jk = await calls;
  const began = performance.now();
  const made = jk.decodeWindow(file, reduce, x, y, width, height);
  const decoding = performance.now() - began;
  const pixels = pixelsOf(made.samples, made.components, shades(made.depth, range ?? wholeRange(made.depth)));
  const { samples, ...told } = made;
  // The samples of a tile go along, to be told under the pointer, and shown in another range.
  return { ...told, pixels, samples: isKept ? samples : null, bytes: file.length, decoding, memory: jk.memory() };
}

onmessage = async ({ data }) => {
  if (data.module) {
    giveModule(data.module);
    warmUp();
    return;
  }
  isAsked = true;
  try {
    const made = await windowOf(data);
    postMessage({ id: data.id, made }, [made.pixels.buffer, ...(made.samples ? [made.samples.buffer] : [])]);
  } catch (error) {
    if (error instanceof WebAssembly.RuntimeError) renew();
    postMessage({ id: data.id, fault: error.message, number: error.number });
  }
};
