// Samples as colours. Of a range of values the lowest is black and the highest is white or the full colour; what is
// between lies between in proportion, rounded, and what is outside is as the nearer end.

// The shade from 0 to 255 of each value that a sample of so many bits may have.
export function shades(depth, { low, high }) {
  const table = new Uint8ClampedArray(2 ** depth), span = Math.max(1, high - low);
  for (let value = 0; value < table.length; value++) {
    table[value] = Math.floor((510 * (value - low) + span) / (2 * span));
  }
  return table;
}

// All values that a sample of so many bits may have.
export function wholeRange(depth) {
  return { low: 0, high: 2 ** depth - 1 };
}

// The pixels of samples that lie pixel by pixel, of one component or of three, for a canvas.
export function pixelsOf(samples, components, table) {
  const pixels = new Uint8ClampedArray(samples.length / components * 4);
  const second = components < 3 ? 0 : 1, third = components < 3 ? 0 : 2;
  for (let from = 0, to = 0; to < pixels.length; from += components, to += 4) {
    pixels[to] = table[samples[from]];
    pixels[to + 1] = table[samples[from + second]];
    pixels[to + 2] = table[samples[from + third]];
    pixels[to + 3] = 255;
  }
  return pixels;
}
