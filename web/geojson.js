// SPDX-License-Identifier: MIT OR Apache-2.0
// GeoJSON (RFC 7946): it has neither M nor SRIDs.
import { DIMENSIONS, KINDS, PART_SIZE, put, result, run, viewThere } from './desk.js';
import { write } from './wkb.js';

export function toGeoJSON(bytes) {
  const from = put(bytes);
  run('wkb_parts');
  return geometryAt({ from, numbers: result('numbers'), at: 0 });
}

function listOf(count, item) {
  const items = [];
  for (let i = 0; i < count; i++) items.push(item());
  return items;
}

/** Makes an object of the table of parts, and goes to the next one. */
function geometryAt(table) {
  const kind = table.numbers[table.at];
  const count = table.numbers[table.at + 7];
  const type = KINDS[kind];
  if (kind < 3) return { type, coordinates: coordinatesAt(table, kind === 1) };
  table.at += PART_SIZE;
  if (kind === 7) return { type, geometries: listOf(count, () => geometryAt(table)) };
  const item = kind === 3 ? () => coordinatesAt(table, false) : () => geometryAt(table).coordinates;
  return { type, coordinates: listOf(count, item) };
}

/** The coordinates of a point, a line string or a ring; none of an empty point. */
function coordinatesAt(table, isPoint) {
  const { from, numbers, at: it } = table;
  const view = viewThere;
  const axes = DIMENSIONS[numbers[it + 1]];
  const isLittle = numbers[it + 2] === 1;
  const hasZ = axes[2] === 'z';
  const items = [];
  let at = (from + numbers[it + 6]) >>> 0;
  for (let left = numbers[it + 7] >>> 0; left > 0; left--, at += 8 * axes.length) {
    const position = [view.getFloat64(at, isLittle), view.getFloat64(at + 8, isLittle)];
    if (hasZ) position.push(view.getFloat64(at + 16, isLittle));
    items.push(position);
  }
  table.at += PART_SIZE;
  if (!isPoint) return items;
  return items[0].every(Number.isNaN) && Number.isNaN(view.getFloat64(at - 8, isLittle)) ? [] : items[0];
}

export function fromGeoJSON(geometry, options) {
  const out = new Encoder();
  out.geometry(geometry, widthOf(geometry) ?? 2);
  return write(new Uint8Array(out.view.buffer, 0, out.size), options);
}

const isList = (it) => Array.isArray(it) || ArrayBuffer.isView(it);

/** How many numbers the first position of a geometry or in a list has, if there is one. */
function widthOf(it) {
  const list = it?.geometries ?? it?.coordinates ?? it;
  if (!isList(list)) return;
  if (typeof list[0] === 'number') return list.length;
  for (const item of list) {
    const width = widthOf(item);
    if (width) return width;
  }
}

/** Lays ISO WKB in little endian, which `write` checks. */
class Encoder {
  view = new DataView(new ArrayBuffer(64));
  size = 0;

  put(set, length, number) {
    const at = this.size;
    this.size += length;
    if (this.size > this.view.byteLength) {
      const longer = new Uint8Array(2 * this.size);
      longer.set(new Uint8Array(this.view.buffer));
      this.view = new DataView(longer.buffer);
    }
    this.view[set](at, number, true);
  }

  position(it, width) {
    if (!isList(it) || it.length !== width) throw new TypeError(`a position that isn't a list of ${width} numbers`);
    for (let i = 0; i < width; i++) {
      if (typeof it[i] !== 'number') throw new TypeError(`a position with ${String(it[i])}, which is no number`);
      this.put('setFloat64', 8, it[i]);
    }
  }

  list(items, put) {
    if (!isList(items)) throw new TypeError('coordinates that are no list');
    const count = items.length;
    this.put('setUint32', 4, count);
    for (let i = 0; i < count; i++) put(items[i]);
  }

  geometry(it, width) {
    const kind = KINDS.indexOf(it?.type);
    const own = kind === 7 ? it.geometries : it?.coordinates;
    if (/^Feature/.test(it?.type)) throw new TypeError(`a ${it.type}: give the geometry of a feature`);
    if (kind < 1 || !isList(own)) throw new TypeError('no geometry of GeoJSON');
    if (width !== 2 && width !== 3) throw new TypeError(`a position of ${width} numbers`);
    this.put('setUint8', 1, 1);
    this.put('setUint32', 4, kind + (width - 2) * 1000);
    const line = (positions) => this.list(positions, (position) => this.position(position, width));
    if (kind === 1) this.position(own.length > 0 ? own : Array(width).fill(NaN), width);
    else if (kind === 2) line(own);
    else if (kind === 3) this.list(own, line);
    else if (kind === 7) this.list(own, (member) => this.geometry(member, widthOf(member) ?? width));
    else this.list(own, (coordinates) => this.geometry({ type: KINDS[kind - 3], coordinates }, width));
  }
}
