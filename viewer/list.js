// The list of the images: thumbnails, a filter, and files that couldn't be opened, with the reason.

import { linkOf } from './address.js';
import { windowJob } from './tiles.js';

// A thumbnail is the image at the first reduction that fits this side, or at the last. One with more pixels isn't made.
const THUMBNAIL_SIDE = 160;
const MOST_THUMBNAIL = 1 << 20;

export function describe({ width, height, components, depth }) {
  return `${width} × ${height}, ${components < 3 ? 'grey' : 'colour'}, ${depth} bits`;
}

function element(kind, className, text) {
  const made = document.createElement(kind);
  made.className = className;
  made.textContent = text;
  return made;
}

function thumbnailJob(image) {
  let reduce = 0;
  const isLarge = () => Math.max(image.width, image.height) > THUMBNAIL_SIDE * 2 ** reduce;
  while (reduce < image.levels && isLarge()) reduce++;
  if (image.width * image.height > MOST_THUMBNAIL * 4 ** reduce) return null;
  return windowJob(image, { x: 0, y: 0, width: image.width, height: image.height, reduce });
}

export class List {
  #pool;
  #images = new Map();
  #rows = [];
  #list = document.getElementById('list');
  #filter = document.getElementById('filter');
  #current = null;
  #seen = new IntersectionObserver((entries) => this.#draw(entries));

  constructor(pool) {
    this.#pool = pool;
    this.#filter.addEventListener('input', () => this.#hide());
    this.#filter.addEventListener('keydown', (event) => {
      if (event.key === 'Enter') this.#names().slice(0, 1).forEach((name) => this.#open(name));
      if (event.key === 'Escape') {
        this.#filter.value = '';
        this.#hide();
        this.#filter.blur();
      }
    });
  }

  // Lists images, and behind them files that couldn't be opened: each has a name and a reason.
  show(images, refused) {
    for (const image of images) {
      this.#images.set(image.name, image);
      const link = document.createElement('a');
      link.href = linkOf({ image: image.name });
      link.dataset.name = image.name;
      link.append(Object.assign(document.createElement('canvas'), { width: 0, height: 0 }),
        element('strong', 'name', image.name), element('span', 'size', describe(image)));
      this.#add(link, image.name);
      this.#seen.observe(link);
    }
    for (const { name, reason } of refused) {
      const row = element('div', 'refused', '');
      row.title = `${name}: ${reason}`;
      row.append(element('strong', 'name', name), element('span', 'reason', reason));
      this.#add(row, name);
    }
    this.#hide();
  }

  #add(content, name) {
    const row = document.createElement('li');
    row.append(content);
    this.#list.append(row);
    this.#rows.push({ row, content, name: name.toLowerCase() });
  }

  // Marks an image as the one that is shown, and scrolls to it.
  mark(name) {
    this.#current = name;
    for (const { content } of this.#rows) {
      if (content.dataset.name !== name) content.removeAttribute('aria-current');
      else content.setAttribute('aria-current', 'true');
    }
    this.#scroll();
  }

  #scroll() {
    this.#list.querySelector('[aria-current]')?.scrollIntoView({ block: 'nearest', inline: 'nearest' });
  }

  // Opens the image that is so many rows further in what the filter leaves.
  go(steps) {
    const names = this.#names(), at = names.indexOf(this.#current);
    const next = at < 0 ? names[0] : names[at + steps];
    if (next !== undefined) this.#open(next);
  }

  #open(name) {
    // The address is read a moment later, and the next key may come before that.
    this.#current = name;
    location.hash = linkOf({ image: name });
  }

  focusFilter() {
    this.#filter.focus();
    this.#filter.select();
  }

  #names() {
    const left = this.#rows.filter(({ row }) => !row.hidden).map(({ content }) => content.dataset.name);
    return left.filter((name) => name !== undefined);
  }

  // Leaves the rows whose names have each word of the filter.
  #hide() {
    const words = this.#filter.value.toLowerCase().split(/\s+/);
    for (const { row, name } of this.#rows) row.hidden = !words.every((word) => name.includes(word));
    const left = this.#rows.filter(({ row }) => !row.hidden).length, all = this.#rows.length;
    document.getElementById('count').textContent = left === all ? `${all}` : `${left} of ${all}`;
    this.#scroll();
  }

  // Thumbnails are drawn where their rows come into view.
  #draw(entries) {
    for (const { target, isIntersecting } of entries) {
      if (!isIntersecting) continue;
      this.#seen.unobserve(target);
      this.#drawThumbnail(this.#images.get(target.dataset.name), target);
    }
  }

  #drawThumbnail(image, link) {
    const job = thumbnailJob(image), canvas = link.querySelector('canvas');
    if (!job) return;
    this.#pool.ask(job, { isUrgent: false }).made.then(({ width, height, pixels }) => {
      Object.assign(canvas, { width, height });
      canvas.getContext('2d').putImageData(new ImageData(pixels, width, height), 0, 0);
    }, (error) => {
      link.title = error.message;
      link.append(element('span', 'reason', error.message.split(':')[0]));
    });
  }
}
