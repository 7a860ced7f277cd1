// SPDX-License-Identifier: MIT OR Apache-2.0
// A geometry as SVG, with axes. Of many coordinates it draws a sample.
import { words } from './out/package/wkb.js';
import { counted, isSimple, said } from './explain.js';

const LIMITS = { parts: 4000, coordinates: 20000, vertices: 150 };
const [LEFT, BOTTOM, EDGE, INSET] = [66, 30, 14, 16];

function svg(name, attributes, ...children) {
  const it = document.createElementNS('http://www.w3.org/2000/svg', name);
  for (const [key, value] of Object.entries(attributes)) it.setAttribute(key, value);
  it.append(...children);
  return it;
}

/** The scales of x and y, from numbers to places, with their ends: the same number of units to a pixel on both, unless
 * one is far longer. Halves can't overflow. */
function scalesOf(places, size) {
  const ends = [[LEFT + INSET, size.width - EDGE - INSET], [size.height - BOTTOM - INSET, EDGE + INSET]];
  const ranges = ends.map(([from, to], axis) => {
    const numbers = places.map((it) => it[axis]);
    const [min, max] = [Math.min(...numbers), Math.max(...numbers)];
    return { middle: min / 2 + max / 2, unit: (max / 2 - min / 2) / Math.abs(to - from), length: Math.abs(to - from) };
  });
  const most = Math.max(...ranges.map((it) => it.unit));
  return ranges.map(({ middle, unit, length }, axis) => {
    const own = unit * length || Math.max(1, Math.abs(middle) * 1e-6);
    const half = most < 50 * unit ? Math.min(most * length, Number.MAX_VALUE) : own;
    const [from, to] = ends[axis];
    const at = (value) => (from + to) / 2 + (to - from) / 2 * ((value - middle) / half);
    return { at, least: Math.max(middle - half, -1.7e308), most: Math.min(middle + half, 1.7e308) };
  });
}

/** Round numbers between the ends. */
function ticksOf({ least, most }) {
  const raw = most / 5 - least / 5;
  const power = 10 ** Math.floor(Math.log10(raw));
  const step = [1, 2, 5, 10].map((it) => it * power).find((it) => it >= raw) ?? raw;
  const ticks = [];
  for (let i = Math.ceil(least / step); i * step <= most && ticks.length < 12; i++) ticks.push(i * step);
  return ticks;
}

function label(it) {
  const isLong = Math.abs(it) >= 1e7 || it !== 0 && Math.abs(it) < 1e-4;
  return isLong ? it.toExponential(2) : String(+it.toPrecision(9));
}

function axes([x, y], { width, height }) {
  const tick = (it, line, text) => [svg('line', line), svg('text', text, label(it))];
  const [left, bottom] = [{ x1: LEFT, x2: width - EDGE }, { y1: EDGE, y2: height - BOTTOM }];
  return svg('g', { class: 'axes' },
    ...ticksOf(x).flatMap((it) => tick(it, { x1: x.at(it), x2: x.at(it), ...bottom },
      { x: x.at(it), y: height - BOTTOM + 18, 'text-anchor': 'middle' })),
    ...ticksOf(y).flatMap((it) => tick(it, { y1: y.at(it), y2: y.at(it), ...left },
      { x: LEFT - 6, y: y.at(it) + 4, 'text-anchor': 'end' })));
}

/** The places of a part, each so-manieth and the last; null where a number isn't finite, which breaks a line. */
function placesOf(bytes, part, every) {
  const [numbers, width, places] = [words(bytes, part), part.dimension.length, []];
  for (let i = 0; i < part.count; i++) {
    if (i % every > 0 && i < part.count - 1) continue;
    const place = [numbers[width * i], numbers[width * i + 1]];
    places.push(place.every(Number.isFinite) ? place : null);
  }
  return places;
}

/** The shapes of parts with their places: rings in the area of their polygon, many points as one. */
function shapesOf(chosen, whole, [x, y]) {
  const paths = {};
  const add = (key, path) => { paths[key] = (paths[key] ?? '') + path; };
  const at = (it) => `${x.at(it[0]).toFixed(2)} ${y.at(it[1]).toFixed(2)}`;
  for (const { part, places } of chosen) {
    const path = places.map((it, i) => it && (places[i - 1] ? 'L' : 'M') + at(it)).join('');
    if (path === '') continue;
    if (part.kind === 'Point') add(`point,${chosen.length > LIMITS.vertices ? '' : part.index}`, `${path}h0`);
    else if (part.error) add(`line bad,${part.index}`, path);
    else if (part.kind === 'Ring') add(`area,${part.inside.index}`, `${path}Z`);
    else add(`line,${part.index}`, path);
  }
  if (whole.length <= LIMITS.vertices) add('vertex,', whole.map((it) => `M${at(it)}h0`).join(''));
  // In the order of their names areas are below the others.
  return Object.keys(paths).sort().map((key) => {
    const [name, index] = key.split(',');
    return svg('path', { d: paths[key], class: name, 'data-part': index });
  });
}

/** The drawing, so many pixels wide, and what it shows; an empty one without a finite coordinate. */
export function draw(bytes, parts, width) {
  const own = parts.filter((it) => isSimple(it.kind));
  const everyPart = Math.ceil(own.length / LIMITS.parts);
  const some = own.filter((_, i) => i % everyPart === 0);
  const sum = (of) => of.reduce((count, it) => count + it.count, 0);
  const every = Math.max(1, Math.ceil(sum(some) / LIMITS.coordinates));
  const chosen = some.map((part) => ({ part, places: placesOf(bytes, part, every) }));
  const places = chosen.flatMap((it) => it.places.filter(Boolean));
  if (places.length === 0) return { picture: '', caption: 'There is no coordinate to draw' };
  const size = { width, height: Math.round(0.65 * width) };
  const scales = scalesOf(places, size);
  const [isSome, isSample] = [places.length < sum(own), everyPart > 1 || every > 1];
  const of = (isSome ? `${said(places.length)} of ` : '') + counted(sum(own), 'coordinate');
  const caption = isSample ? `A sample: ${of}`
    : isSome ? `${of}: the others aren't finite` : `x to the right, y upwards: ${of}`;
  const named = { viewBox: `0 0 ${width} ${size.height}`, role: 'img', 'aria-label': `A drawing of ${of}` };
  return { caption, picture: svg('svg', named, axes(scales, size),
    svg('g', { class: 'shapes' }, ...shapesOf(chosen, places, scales))) };
}
