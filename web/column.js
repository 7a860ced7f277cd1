// SPDX-License-Identifier: MIT OR Apache-2.0
// Columns of geometries, as Arrow has them: each call answers for all rows, and no row stops the others.
import { DIMENSIONS, KINDS, asBytes, copyOf, factsThere, numbered, put, rangesOf, result, run } from './desk.js';

/** The bits of rows, least significant first: 1 for those that a function says. */
function bitsOf(rows, isSet) {
  const bits = new Uint8Array(Math.ceil(rows.length / 8));
  rows.forEach((it, i) => { bits[i >> 3] |= isSet(it) ? 1 << (i & 7) : 0; });
  return bits;
}

const through = (outer, inner) => outer.map((it) => inner[it]);
/** GeoArrow's lists of each kind, from the outermost on, of the offsets of rows, singles and rings. */
const LISTS = {
  Point: () => [],
  LineString: (rows, singles, rings) => [through(through(rows, singles), rings)],
  Polygon: (rows, singles, rings) => [through(rows, singles), rings],
  MultiPoint: (rows, singles, rings) => [through(through(rows, singles), rings)],
  MultiLineString: (rows, singles, rings) => [rows, through(singles, rings)],
  MultiPolygon: (rows, singles, rings) => [rows, singles, rings],
};

/** The kind of all rows, or the multi kind of theirs. */
function kindOf(kinds) {
  const kind = kinds.find((it) => it.startsWith('Multi')) ?? kinds[0];
  if (LISTS[kind] && kinds.every((it) => it === kind || `Multi${it}` === kind)) return kind;
  throw new TypeError(`rows of one kind are needed, and here are: ${[...new Set(kinds)].join(', ') || 'none'}`);
}

/** Points, of which a row without one has NaNs. */
function spread(values, rows, width) {
  const all = new Float64Array(width * (rows.length - 1)).fill(NaN);
  rows.subarray(1).forEach((end, i) => all.set(values.subarray(width * rows[i], width * end), width * i));
  return all;
}

/** Rows in the buffers of Arrow, which are copied at each call. */
export class Column {
  #buffers;
  #offsetSize;
  #first;

  constructor(data, offsets, { validity = null, first = 0 } = {}) {
    const [, bits] = /^(?:Big)?(?:Int|Uint)(32|64)Array$/.exec(offsets?.[Symbol.toStringTag]) ?? [];
    if (!bits) throw new TypeError('offsets have to be an Int32Array or a BigInt64Array');
    if (!Number.isInteger(first) || first < 0) throw new RangeError(`no first bit: ${first}`);
    this.#buffers = [data, offsets, validity ?? new Uint8Array()].map(asBytes);
    this.#offsetSize = bits / 8;
    this.#first = validity === null ? -1 : first;
    this.length = Math.max(0, this.#buffers[1].length / this.#offsetSize - 1);
  }

  static of(rows) {
    const all = Array.from(rows, (it) => it == null ? null : asBytes(it));
    const ends = new Int32Array(all.length + 1);
    let size = 0;
    all.forEach((it, i) => { ends[i + 1] = size += it?.length ?? 0; });
    if (size >= 2 ** 31) throw new RangeError('rows of 2 GB or more');
    const data = new Uint8Array(size);
    all.forEach((it, i) => it && data.set(it, ends[i]));
    return new Column(data, ends, { validity: all.includes(null) ? bitsOf(all, Boolean) : null });
  }

  #run(name, ...values) {
    this.#buffers.forEach(put);
    run(name, this.#offsetSize, this.#first, ...values);
  }

  check() {
    this.#run('wkb_column_check');
    return copyOf('statuses');
  }

  bounds() {
    this.#run('wkb_column_bounds');
    return { bounds: copyOf('numbers'), statuses: copyOf('statuses') };
  }

  facts() {
    this.#run('wkb_column_facts');
    const [rows, accepted, nullRows, refused, withoutSrid, count] = factsThere;
    const it = result('numbers');
    const types = Array.from({ length: count }, (_, i) => {
      const [kind, dimension, of] = it.subarray(3 * i);
      return { kind: KINDS[kind], dimension: DIMENSIONS[dimension], rows: of };
    });
    const srids = Array.from(it.subarray(3 * count));
    return { rows, accepted, nullRows, refused, types, bounds: rangesOf(factsThere, 6), srids, withoutSrid };
  }

  coordinates(dimension = 'xy') {
    const number = DIMENSIONS.indexOf(dimension);
    if (number < 0) throw new TypeError(`no dimension: ${dimension}`);
    this.#run('wkb_column_coordinates', number);
    return { values: copyOf('numbers'), rows: copyOf('rows'), singles: copyOf('singles'), rings: copyOf('rings'),
      statuses: copyOf('statuses') };
  }

  geoArrow(asked) {
    const { types } = this.facts();
    const kind = kindOf(types.map((it) => it.kind));
    const dimension = asked ?? DIMENSIONS[types.reduce((all, it) => all | DIMENSIONS.indexOf(it.dimension), 0)];
    const { values, rows, singles, rings, statuses } = this.coordinates(dimension);
    return { kind, dimension, values: kind === 'Point' ? spread(values, rows, dimension.length) : values,
      offsets: LISTS[kind](rows, singles, rings), validity: bitsOf(statuses, (it) => it === 0) };
  }

  write(options) {
    this.#run('wkb_column_write', ...numbered(options));
    return { data: copyOf('bytes'), offsets: copyOf('rows'), statuses: copyOf('statuses') };
  }
}
