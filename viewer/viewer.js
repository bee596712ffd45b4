// The page: a list of the images of an archive, and a map that shows one of them.

import { CRS, extend, latLngBounds, map as makeMap, transformation } from './leaflet/leaflet.esm.min.js';
import { askedFor, linkOf } from './address.js';
import { Fault, replyAt } from './faults.js';
import { List, describe } from './list.js';
import { wholeRange } from './pixels.js';
import { pool } from './pool.js';
import { LEAST_ZOOM, Tiles } from './tiles.js';

// Beyond its own size an image is enlarged so often.
const MOST_ZOOM = 4;
// Zooms that differ by less show the same.
const SAME_ZOOM = 0.001;
const NO_SUCH_IMAGE = 17;

const element = (id) => document.getElementById(id);

const images = new Map();
const list = new List(pool);
const map = makeMap('map', {
  crs: extend({}, CRS.Simple, { transformation: transformation(1, 0, 1, 0) }),
  attributionControl: false,
  fadeAnimation: false,
  minZoom: 0,
  maxZoom: MOST_ZOOM,
  zoomSnap: 0,
  maxBoundsViscosity: 1,
});
// What is shown: the image, its tiles, the values that are black and white, and whether it fits the page.
let shown = null;
let isZooming = false;
// Where the pointer is on the map.
let pointer = null;

function tellFault(message) {
  element('fault').hidden = !message;
  element('fault').textContent = message ?? '';
}

// The lines of `GET /images`.
function imagesIn(text) {
  return text.split('\n').filter((line) => line).map((line) => {
    const [name, ...numbers] = line.split(' ');
    const [width, height, components, depth, levels] = numbers.map(Number);
    return { name, width, height, components, depth, levels };
  });
}

// The files that couldn't be opened, where the server of the page says that there are some.
async function refusedBy(reply) {
  if (!Number(reply.headers.get('X-Refused'))) return [];
  const text = await (await replyAt('refused')).text();
  return text.split('\n').filter((line) => line).map((line) => {
    const [name, reason] = line.split('\t');
    return { name, reason };
  });
}

// The address and the captions.

function keepLink() {
  const { image, range, isFit } = shown, centre = map.getCenter(), whole = wholeRange(image.depth);
  const zoom = Number(map.getZoom().toFixed(3));
  const place = isFit ? {} : { zoom, x: Math.round(centre.lng), y: Math.round(centre.lat) };
  const values = range.low === whole.low && range.high === whole.high ? {} : range;
  history.replaceState(null, '', linkOf({ image: image.name, ...place, ...values }));
  element('about').textContent = `${image.name}, ${describe(image)}, ${scaleInWords(map.getZoom())}`;
}

function scaleInWords(zoom) {
  return `${Number((100 * 2 ** zoom).toPrecision(3))} %`;
}

// The place and the values under the pointer; at a reduction the values are those of the reduced image.
function showPixel() {
  const text = shown && pointer && pixelInWords(map.containerPointToLatLng(pointer));
  element('pixel').hidden = !text;
  element('pixel').textContent = text || '';
}

function pixelInWords({ lng, lat }) {
  const x = Math.floor(lng), y = Math.floor(lat), { image, tiles } = shown;
  if (x < 0 || y < 0 || x >= image.width || y >= image.height) return null;
  const found = tiles.samplesAt(x, y);
  if (!found) return `x ${x}, y ${y}`;
  return `x ${x}, y ${y}: ${found.values.join(' ')}${found.reduce ? ` at 1 : ${2 ** found.reduce}` : ''}`;
}

// The image.

function within(number, least, most) {
  return Math.min(most, Math.max(least, number));
}

function boundsOf({ width, height }) {
  return latLngBounds([[0, 0], [height, width]]);
}

function showPending(tiles) {
  const isPending = tiles.isPending();
  element('map').setAttribute('aria-busy', isPending);
  if (!isPending) showPixel();
  // For those who measure: when the tiles of a view were asked for, and when the last of them was shown.
  const mark = isPending ? 'asked' : 'shown';
  performance.clearMarks(mark);
  performance.mark(mark);
}

function changeImage(image) {
  if (shown) shown.tiles.remove();
  const tiles = new Tiles(image, pool, { maxZoom: MOST_ZOOM });
  tiles.on('pending', () => showPending(tiles));
  tiles.on('fault', ({ message }) => tellFault(message));
  tiles.once('tileload', () => performance.mark('first tile'));
  shown = { image, tiles, range: wholeRange(image.depth), isFit: true };
  document.title = image.name;
  element('range').hidden = image.depth <= 8;
  for (const end of ['low', 'high']) element(end).max = wholeRange(image.depth).high;
  Object.assign(element('file'), { href: `images/${image.name}`, download: `${image.name}.jp2` });
  list.mark(image.name);
}

// The zoom at which the image fills the page; the image may be shown as small as that, or as its last reduction.
function fitZoom() {
  map.options.minZoom = LEAST_ZOOM;
  const zoom = within(map.getBoundsZoom(boundsOf(shown.image)), LEAST_ZOOM, MOST_ZOOM);
  map.options.minZoom = Math.min(zoom, -shown.image.levels);
  map.fire('zoomlevelschange');
  return zoom;
}

function fit() {
  if (!shown) return;
  const { width, height } = shown.image;
  shown.isFit = true;
  map.setView([height / 2, width / 2], fitZoom(), { animate: false });
}

function moveTo({ zoom, x, y }, isAnother) {
  const { image, tiles } = shown;
  map.options.maxBounds = boundsOf(image);
  if ([zoom, x, y].some(Number.isNaN)) {
    fit();
  } else {
    const all = fitZoom(), at = within(zoom, map.options.minZoom, MOST_ZOOM);
    shown.isFit = Math.abs(at - all) < SAME_ZOOM;
    map.setView([within(y, 0, image.height), within(x, 0, image.width)], at, { animate: false });
  }
  if (isAnother) tiles.addTo(map);
}

function setRange({ low, high }) {
  if (shown.image.depth <= 8) return;
  const whole = wholeRange(shown.image.depth);
  const black = Number.isNaN(low) ? whole.low : within(Math.round(low), whole.low, whole.high);
  shown.range = { low: black, high: Number.isNaN(high) ? whole.high : within(Math.round(high), black, whole.high) };
  for (const end of ['low', 'high']) {
    element(end).value = shown.range[end];
    element(end).nextElementSibling.textContent = shown.range[end];
  }
  shown.tiles.setRange(shown.range);
}

// Shows what the address asks for; without a name the first image of the list.
function show() {
  if (isZooming) {
    map.once('zoomend', show);
    return;
  }
  const asked = askedFor(), image = images.get(asked.name ?? images.keys().next().value);
  if (!image) {
    tellFault(asked.name === null ? 'the archive has no image' : new Fault(NO_SUCH_IMAGE).message);
    return;
  }
  tellFault(null);
  const isAnother = shown?.image !== image;
  if (isAnother) changeImage(image);
  setRange(asked);
  moveTo(asked, isAnother);
  keepLink();
}

// What a reader does.

function switchScreen() {
  if (document.fullscreenElement) document.exitFullscreen();
  else document.querySelector('main').requestFullscreen().catch((error) => tellFault(error.message));
}

function showSamples() {
  map.setZoom(0);
}

const KEYS = {
  Home: fit, 0: fit, 1: showSamples, f: switchScreen, '/': () => list.focusFilter(),
  n: () => list.go(1), PageDown: () => list.go(1), p: () => list.go(-1), PageUp: () => list.go(-1),
};

function onKey(event) {
  const isWritten = event.target.matches?.('input:not([type=range])');
  const act = KEYS[event.key.length === 1 ? event.key.toLowerCase() : event.key];
  if (!act || isWritten || event.ctrlKey || event.altKey || event.metaKey) return;
  // Home and Page Down move a slider.
  if (event.target.matches?.('input') && event.key.length > 1) return;
  event.preventDefault();
  act();
}

const BUTTONS = {
  fit, samples: showSamples, screen: switchScreen, next: () => list.go(1), previous: () => list.go(-1),
};
for (const [id, act] of Object.entries(BUTTONS)) element(id).addEventListener('click', act);
element('screen').hidden = !document.fullscreenEnabled;
document.addEventListener('keydown', onKey);

for (const end of ['low', 'high']) {
  element(end).addEventListener('input', () => {
    setRange({ low: element('low').valueAsNumber, high: element('high').valueAsNumber });
    keepLink();
  });
}
map.on('zoomstart', () => { isZooming = true; });
map.on('zoomend', () => { isZooming = false; });
map.on('zoom', () => { element('map').classList.toggle('reduced', map.getZoom() < 0); });
map.on('moveend', () => {
  if (!shown) return;
  map.panInsideBounds(map.options.maxBounds, { animate: false });
  shown.isFit = Math.abs(map.getZoom() - fitZoom()) < SAME_ZOOM;
  // Where the address names another image, that is shown next.
  if (askedFor().name === shown.image.name) keepLink();
  showPixel();
});
map.on('move', showPixel);
map.on('resize', () => {
  if (shown?.isFit) fit();
});
for (const kind of ['pointermove', 'pointerdown']) {
  map.getContainer().addEventListener(kind, (event) => {
    pointer = map.mouseEventToContainerPoint(event);
    showPixel();
  });
}
map.getContainer().addEventListener('pointerleave', () => {
  pointer = null;
  showPixel();
});
addEventListener('hashchange', show);

try {
  const reply = await replyAt('images');
  for (const image of imagesIn(await reply.text())) images.set(image.name, image);
  const refused = await refusedBy(reply);
  list.show(images.values(), refused);
  show();
  map.getContainer().focus();
} catch (error) {
  tellFault(error.message);
}
