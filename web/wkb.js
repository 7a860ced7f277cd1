// SPDX-License-Identifier: MIT OR Apache-2.0
// Reads and writes WKB and EWKB in browsers, workers and Node.js. What is checked, measured, compared and written is so
// by the proved sources, as WebAssembly (desk.js). This file makes objects of the numbers; wkb.d.ts says which.
import { DIMENSIONS, KINDS, ORDERS, PART_SIZE, WkbError, asBytes, copyOfBytes, numbered, over, put, rangesOf, refusal,
  result } from './desk.js';

export { DIMENSIONS, KINDS, STATUSES, WkbError, start } from './desk.js';
export { Column } from './column.js';
export { fromGeoJSON, toGeoJSON } from './geojson.js';
const AXES = ['', ...DIMENSIONS];
export function bytesOf(text) {
  const bare = String(text).trim().replace(/^["']|["']$/g, '').replace(/\s+/g, '');
  const digits = bare.replace(/^(\\\\?x|0x|x')/i, '');
  const isHex = /^[0-9a-f]*$/i.test(digits);
  // Base64 may have digits of hex alone: it then begins with A, for the order 0, as the hex of no geometry does.
  if (isHex && bare[0] !== 'A') return fromHex(digits);
  // The first byte of base64 is an order, or the G of a GeoPackage.
  try {
    const bytes = Uint8Array.from(atob(bare.replace(/-/g, '+').replace(/_/g, '/')), (it) => it.charCodeAt(0));
    if ([0, 1, 0x47].includes(bytes[0])) return bytes;
  } catch { /* It is told below. */ }
  if (isHex) return fromHex(digits);
  const wrong = digits.search(/[^0-9a-f]/i);
  throw new SyntaxError(`neither hex nor base64: hex has no "${digits[wrong]}", the digit ${wrong + 1}`);
}

/** The value of each digit of hex, by its character. */
const DIGITS = Uint8Array.from({ length: 103 }, (_, i) => parseInt(String.fromCharCode(i), 16));

function fromHex(digits) {
  if (digits.length % 2 === 1) throw new SyntaxError(`an odd number of digits of hex: ${digits.length}`);
  const digit = (i) => DIGITS[digits.charCodeAt(i)];
  const found = new Uint8Array(digits.length / 2);
  for (let i = 0; i < found.length; i++) found[i] = digit(2 * i) << 4 | digit(2 * i + 1);
  return found;
}

export function check(bytes) {
  const it = over(bytes, 'wkb_check');
  return withHeader({ size: it[4], parts: it[5], coordinates: it[6] }, it);
}

/** Adds the header of a geometry or of a part, whose numbers begin at a place. */
function withHeader(it, numbers, at = 0) {
  it.kind = KINDS[numbers[at]];
  it.dimension = DIMENSIONS[numbers[at + 1]];
  it.byteOrder = ORDERS[numbers[at + 2]];
  it.srid = numbers[at + 3] < 0 ? null : numbers[at + 3];
  return it;
}

export const bounds = (bytes) => rangesOf(over(bytes, 'wkb_bounds'));

export function parts(bytes) {
  const { parts, error } = inspect(bytes);
  if (error) throw error;
  return parts;
}

export function inspect(bytes) {
  put(bytes);
  const error = refusal('wkb_parts');
  if (error && !(error instanceof WkbError)) throw error;
  const [parts, it] = [[], result('numbers')];
  for (let at = 0; at < it.length; at += PART_SIZE) {
    const part = { begin: it[at + 4], end: it[at + 5], offset: it[at + 6], count: it[at + 7], next: it[at + 8] };
    parts.push(withHeader(part, it, at));
  }
  return { parts, error };
}

export function words(bytes, part) {
  const width = KINDS.indexOf(part.kind) < 3 ? part.dimension.length : 0;
  const own = asBytes(bytes).slice(part.offset, part.offset + 8 * width * part.count);
  if (own.length !== 8 * width * part.count) throw new RangeError('no part of these bytes');
  if (part.byteOrder === 'big') for (let i = 0; i < own.length; i += 8) own.subarray(i, i + 8).reverse();
  return new Float64Array(own.buffer);
}

export function write(geometry, options) {
  over(geometry, 'wkb_write', ...numbered(options));
  return copyOfBytes();
}

export const canonical = (geometry) => write(geometry);

export function equal(a, b) {
  // A getter of an input may call this again: so both are looked at before one is put.
  const [one, other] = [asBytes(a), asBytes(b)];
  put(other, 1);
  return over(one, 'wkb_equal')[0] === 1;
}

export function geopackageHeader(blob) {
  const [size, srsId, isEmpty, axes, ...ends] = over(blob, 'wkb_geopackage');
  const envelope = Array.from(AXES[axes], (_, i) => ends.slice(2 * i, 2 * i + 2));
  return { size, srsId, isEmpty: isEmpty === 1, axes: AXES[axes], envelope };
}
