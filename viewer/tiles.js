// An image as tiles on a map of Leaflet: each tile is a window of the stored image, at the reduction of its zoom.
// Zoom 0 shows the image itself, -1 its first reduction and so on; between them the nearer one is scaled. Places on the map
// are columns and rows of the image itself.

import { GridLayer } from './leaflet/leaflet.esm.min.js';
import { pixelsOf, shades, wholeRange } from './pixels.js';

export const TILE = 256;
// No image is shown smaller: at this zoom the largest has less than a pixel.
export const LEAST_ZOOM = -15;
const BAD_WINDOW = 16;

// A job for the pool: a window of an image behind `jk serve`.
export function windowJob(image, view) {
  const { x, y, width, height, reduce } = view;
  return { ...view, url: `images/${image.name}/window?x=${x}&y=${y}&w=${width}&h=${height}&r=${reduce}` };
}

// Whether a tile may lie outside a reduced image, which may have a row or a column less where the image's place on the
// reference grid isn't (0, 0).
function mayBeEmpty(image, { x, y, reduce }) {
  return x >= Math.floor(image.width / 2 ** reduce) || y >= Math.floor(image.height / 2 ** reduce);
}

// Fires `pending` where the first tile is asked for and where the last has come, and `fault` where one can't be had.
export const Tiles = GridLayer.extend({
  initialize(image, pool, options) {
    GridLayer.prototype.initialize.call(this, {
      tileSize: TILE,
      bounds: [[0, 0], [image.height, image.width]],
      minZoom: LEAST_ZOOM,
      minNativeZoom: -image.levels,
      maxNativeZoom: 0,
      noWrap: true,
      ...options,
    });
    this._image = image;
    this._pool = pool;
    this._range = wholeRange(image.depth);
    this._table = shades(image.depth, this._range);
    this._asked = new Map();
    this._shown = new Map();
    this.on('tileunload', ({ coords }) => this._forget(this._tileCoordsToKey(coords)));
  },

  // Shows other values as black and white.
  setRange(range) {
    if (range.low === this._range.low && range.high === this._range.high) return;
    this._range = range;
    this._table = shades(this._image.depth, range);
    for (const { canvas, made } of this._shown.values()) this._draw(canvas, made);
  },

  // The samples at a place of the image and the reduction of which they are, where the tile is shown.
  samplesAt(x, y) {
    const reduce = Math.max(0, -this._tileZoom), column = x >> reduce, row = y >> reduce;
    const found = this._shown.get(`${Math.floor(column / TILE)}:${Math.floor(row / TILE)}:${-reduce}`);
    if (!found) return null;
    const { samples, width, height, components } = found.made, across = column % TILE, down = row % TILE;
    if (across >= width || down >= height) return null;
    const at = (down * width + across) * components;
    return { values: [...samples.subarray(at, at + components)], reduce };
  },

  isPending() {
    return this._asked.size > 0;
  },

  createTile(at, done) {
    const canvas = document.createElement('canvas');
    canvas.width = TILE;
    canvas.height = TILE;
    const view = { x: at.x * TILE, y: at.y * TILE, width: TILE, height: TILE, reduce: -at.z };
    const key = this._tileCoordsToKey(at), range = this._range;
    const asked = this._pool.ask({ ...windowJob(this._image, view), range, isKept: true }, { isUrgent: true });
    this._wait(key, asked);
    asked.made.then((made) => {
      // The range may have been changed meanwhile.
      this._draw(canvas, made, range === this._range ? made.pixels : null);
      this._shown.set(key, { canvas, made });
      Object.assign(canvas.dataset, { x: view.x, y: view.y, reduce: view.reduce, width: made.width, height: made.height,
        bytes: made.bytes, decoding: made.decoding, memory: made.memory });
      done(null, canvas);
    }, (error) => {
      if (error.number === BAD_WINDOW && mayBeEmpty(this._image, view)) {
        done(null, canvas);
        return;
      }
      canvas.classList.add('fault');
      this.fire('fault', { message: error.message });
      done(error, canvas);
    }).finally(() => this._came(key, asked));
    return canvas;
  },

  _draw(canvas, made, pixels) {
    const shown = pixels ?? pixelsOf(made.samples, made.components, this._table);
    canvas.getContext('2d').putImageData(new ImageData(shown, made.width, made.height), 0, 0);
  },

  _wait(key, asked) {
    this._asked.set(key, asked);
    if (this._asked.size === 1) this.fire('pending');
  },

  _came(key, asked) {
    if (this._asked.get(key) !== asked) return;
    this._asked.delete(key);
    if (this._asked.size === 0) this.fire('pending');
  },

  _forget(key) {
    this._shown.delete(key);
    const asked = this._asked.get(key);
    if (!asked) return;
    asked.drop();
    this._came(key, asked);
  },

  // Leaflet calls this where the zoom has changed: tiles of another zoom that haven't come aren't waited for.
  _abortLoading() {
    for (const [key, { coords, loaded }] of Object.entries(this._tiles)) {
      if (coords.z !== this._tileZoom && !loaded) this._removeTile(key);
    }
  },
});
