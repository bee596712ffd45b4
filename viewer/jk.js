// jk's C library as WebAssembly. Addresses are numbers here, and lengths BigInts. A call that makes the memory grow
// leaves it in another buffer, so the buffer is asked for anew behind each call.

import { Fault } from './faults.js';

const MEMORY = 1;
// How many words a jk_frame has.
const FRAME_WORDS = 12;

// The calls of a module, which is a WebAssembly.Module. Each takes a file as a Uint8Array, and throws a Fault.
export async function library(module) {
  const jk = (await WebAssembly.instantiate(module, {})).exports;

  function check(answer) {
    if (answer !== 0) throw new Fault(answer);
  }

  // What something makes with so many bytes of the module's memory.
  function withMemory(bytes, act) {
    // An address in the upper half comes as a negative number.
    const place = jk.jk_take(bytes) >>> 0;
    if (place === 0) throw new Fault(MEMORY);
    try {
      return act(place);
    } finally {
      jk.jk_give_back(place);
    }
  }

  function withFile(file, act) {
    return withMemory(file.length, (place) => {
      new Uint8Array(jk.memory.buffer).set(file, place);
      return act(place, BigInt(file.length));
    });
  }

  function frameOf(place, length, reduce) {
    return withMemory(4 * FRAME_WORDS, (frame) => {
      check(jk.jk_info(place, length, reduce, frame));
      const [x0, y0, width, height, components, depth, isSigned, levels] =
        new Uint32Array(jk.memory.buffer, frame, FRAME_WORDS);
      return { x0, y0, width, height, components, depth, isSigned: isSigned === 1, levels };
    });
  }

  // The samples that a call for bytes or a call for words gives, as the depth asks for.
  function samplesBy(inBytes, inWords, count, depth, ...given) {
    const isWide = depth > 8;
    return withMemory(isWide ? 2 * count : count, (samples) => {
      check((isWide ? inWords : inBytes)(...given, samples, BigInt(count)));
      return new (isWide ? Uint16Array : Uint8Array)(jk.memory.buffer, samples, count).slice();
    });
  }

  return {
    // What boxes and headers say of the image at a reduction.
    info: (file, reduce) => withFile(file, (place, length) => frameOf(place, length, reduce)),

    // The image at a reduction: what info tells, and the samples row by row and pixel by pixel.
    decode: (file, reduce) => withFile(file, (place, length) => {
      const frame = frameOf(place, length, reduce);
      const count = frame.width * frame.height * frame.components;
      const samples = samplesBy(jk.jk_decode_u8, jk.jk_decode_u16, count, frame.depth, place, length, reduce);
      return { ...frame, samples };
    }),

    // A window of the image at a reduction, counted from its upper left sample and cut with it.
    decodeWindow: (file, reduce, x, y, width, height) => withFile(file, (place, length) => {
      const frame = frameOf(place, length, reduce);
      const across = Math.max(0, Math.min(width, frame.width - x));
      const down = Math.max(0, Math.min(height, frame.height - y));
      const samples = samplesBy(jk.jk_decode_window_u8, jk.jk_decode_window_u16, across * down * frame.components,
        frame.depth, place, length, reduce, x, y, width, height);
      return { ...frame, width: across, height: down, samples };
    }),

    // How many bytes the module's memory has: it never shrinks.
    memory: () => jk.memory.buffer.byteLength,
  };
}
