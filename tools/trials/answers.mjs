// Gives files to jk as WebAssembly, by the viewer's own binding, for tools/trials/try-wasm.
//
// node answers.mjs JK.wasm [PAGES]
//
// It reads jobs from standard input: seven numbers of four bytes, the least first, the length of a file, a reduction,
// whether a window is asked for, and its x, y, width and height; then the file. For each it writes a line: the fault's
// number; width, height, components and depth; and the SHA-256 of the samples as bytes, or as words with the least byte
// first where a sample has more than 8 bits. All jobs go through one instance, whose memory has at most so many PAGES
// of 64 KiB. At the end a line tells how many bytes of memory it has.

import { createHash } from 'node:crypto';
import { readFileSync, writeSync } from 'node:fs';
import { library } from '../viewer/jk.js';
import { Fault } from '../viewer/faults.js';

// A number of a module, and where it ends.
function numberAt(bytes, at) {
  let number = 0;
  for (let shift = 0; ; shift += 7) {
    const byte = bytes[at++];
    number += (byte & 127) * 2 ** shift;
    if (byte < 128) return [number, at];
  }
}

function numberBytes(number) {
  const low = number % 128, rest = Math.floor(number / 128);
  return rest ? [low | 128, ...numberBytes(rest)] : [low];
}

// The module with a greatest number of pages in its memory section, the fifth.
function limited(bytes, pages) {
  const parts = [bytes.subarray(0, 8)];
  for (let at = 8; at < bytes.length;) {
    const [length, body] = numberAt(bytes, at + 1);
    if (bytes[at] === 5) {
      const [least] = numberAt(bytes, body + 2);
      const limits = [1, 1, ...numberBytes(least), ...numberBytes(Math.max(least, pages))];
      parts.push(Buffer.from([5, ...numberBytes(limits.length), ...limits]));
    } else {
      parts.push(bytes.subarray(at, body + length));
    }
    at = body + length;
  }
  return Buffer.concat(parts);
}

const [path, pages] = process.argv.slice(2);
const bytes = readFileSync(path);
const module = new WebAssembly.Module(pages ? limited(bytes, Number(pages)) : bytes);
if (WebAssembly.Module.imports(module).length > 0) throw new Error('the module has imports');
const jk = await library(module);

function answer([, reduce, isWindow, x, y, width, height], file) {
  try {
    const made = isWindow ? jk.decodeWindow(file, reduce, x, y, width, height) : jk.decode(file, reduce);
    const samples = new Uint8Array(made.samples.buffer);
    const digest = createHash('sha256').update(samples).digest('hex');
    return `0 ${made.width} ${made.height} ${made.components} ${made.depth} ${digest}`;
  } catch (error) {
    if (!(error instanceof Fault)) throw error;
    return `${error.number}`;
  }
}

const jobs = readFileSync(0);
for (let at = 0; at < jobs.length;) {
  const words = Array.from({ length: 7 }, (_, word) => jobs.readUInt32LE(at + 4 * word));
  const file = jobs.subarray(at + 28, at + 28 + words[0]);
  writeSync(1, `${answer(words, file)}\n`);
  at += 28 + words[0];
}
writeSync(1, `${jk.memory()}\n`);
