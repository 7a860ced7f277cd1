// SPDX-License-Identifier: MIT OR Apache-2.0
// The calls of wasm.rs: an input is copied to where Rust has room for it, and a result is read where Rust says it is.
import code from './code.js';

let module, calls, desk, bytesThere;
/** A view of WebAssembly's memory, and what the last call found of one input, in that memory. */
export let viewThere, factsThere;

/** The kinds by their numbers, and the ordinates by those of dimensions. */
export const KINDS = ['Ring', 'Point', 'LineString', 'Polygon', 'MultiPoint', 'MultiLineString', 'MultiPolygon',
  'GeometryCollection'];
export const DIMENSIONS = ['xy', 'xyz', 'xym', 'xyzm'];
export const ORDERS = ['big', 'little'];
/** How many numbers a part has in the table. */
export const PART_SIZE = 9;

/** What the statuses of a column's rows mean; 0 is a geometry. From 32 on they are the reasons of errors. */
export const STATUSES = { 0: 'OK', 16: 'NULL_ROW', 17: 'BAD_OFFSETS', 32: 'SHORT_HEADER', 33: 'INVALID_BYTE_ORDER',
  34: 'CODE_OUT_OF_RANGE', 35: 'INCORRECT_TYPE', 36: 'NESTING_DEPTH_EXCEEDED', 48: 'SHORT_POINT',
  49: 'SHORT_LINE_STRING', 50: 'SHORT_MULTI_POINT', 51: 'SHORT_LINEAR_RING' };
const NO_MEMORY = 'out of memory';
const REFUSALS = { 1: NO_MEMORY, 3: 'there are fewer validity bits than rows' };
/** The results by their numbers in wasm.rs, and the arrays that they are. */
const RESULTS = { facts: [0, Float64Array], numbers: [1, Float64Array], bytes: [2, Uint8Array],
  statuses: [3, Uint8Array], rows: [4, Int32Array], singles: [5, Int32Array], rings: [6, Int32Array] };

const codeBytes = () => Uint8Array.from(atob(code), (it) => it.charCodeAt(0));

function settle({ exports }) {
  [calls, desk, bytesThere] = [exports, exports.wkb_desk(), undefined];
}

/** Compiles the code ahead, and not on this thread. Else the first call compiles it, and waits. */
export async function start() {
  module ??= await WebAssembly.compile(codeBytes());
  if (!calls) settle(await WebAssembly.instantiate(module));
}

/** Makes a call, and looks at the memory, which is another one when it has grown. A call that doesn't come back, as of
 * a full stack or a number that didn't fit, may leave the desk in disorder; so the next one gets another. */
function ask(name, ...values) {
  try {
    if (!calls) settle(new WebAssembly.Instance(module ??= new WebAssembly.Module(codeBytes())));
    const answer = calls[name](desk, ...values);
    if (!bytesThere?.length) {
      [bytesThere, viewThere] = [new Uint8Array(calls.memory.buffer), new DataView(calls.memory.buffer)];
      factsThere = result('facts');
    }
    return answer;
  } catch (error) {
    calls = undefined;
    throw error;
  }
}

/** Why some bytes are rejected: the first fault from their start on. */
export class WkbError extends Error {
  constructor(message, fields) {
    super(message);
    this.name = 'WkbError';
    Object.assign(this, fields);
  }
}

/** An input's bytes in a view of our own, whose length stays: a subclass may say another, or have another `slice`, as
 * Buffer, and a buffer may grow, one that is shared also while it is copied. */
export function asBytes(input) {
  if (ArrayBuffer.isView(input)) return new Uint8Array(input.buffer, input.byteOffset, input.byteLength);
  const isBuffer = /^.object (Shared)?ArrayBuffer.$/.test(Object.prototype.toString.call(input));
  if (isBuffer) return new Uint8Array(input, 0, input.byteLength);
  throw new TypeError('the input has to be a Uint8Array, another view or an ArrayBuffer; of hex bytesOf makes one');
}

/** Copies an input, and returns where it is. */
export function put(input, which = 0) {
  const bytes = asBytes(input);
  const at = ask('wkb_input', which, bytes.length) >>> 0;
  if (at === 0) throw new RangeError(NO_MEMORY);
  bytesThere.set(bytes, at);
  return at;
}

/** A result of the last call, where it is until the next one; and a copy of it. */
export function result(name) {
  const [which, Items] = RESULTS[name];
  return new Items(bytesThere.buffer, calls.wkb_place(desk, which) >>> 0, calls.wkb_size(desk, which) >>> 0);
}
export const copyOf = (name) => result(name).slice();

/** A copy of its bytes: without a view of them, a point is written in three quarters of the time. */
export function copyOfBytes() {
  const at = calls.wkb_place(desk, 2) >>> 0;
  return bytesThere.slice(at, at + (calls.wkb_size(desk, 2) >>> 0));
}

/** Makes a call over the inputs that are there. Returns why it has no result, if it has none. */
export function refusal(name, ...values) {
  const status = ask(name, ...values);
  if (status === 0) return null;
  if (status in REFUSALS) return new RangeError(REFUSALS[status]);
  const [part, offset, ...more] = factsThere;
  const [needed, has, code] = more.map((it) => it < 0 ? null : it);
  const reason = STATUSES[status] ?? 'NO_HEADER';
  return new WkbError(new TextDecoder().decode(result('bytes')), { reason, part, offset, code, needed, has });
}

/** Makes a call over the inputs that are there; throws if it has no result. */
export function run(name, ...values) {
  const error = refusal(name, ...values);
  if (error) throw error;
}

/** Makes a call over an input, and returns what it found. */
export function over(input, name, ...values) {
  put(input);
  run(name, ...values);
  return factsThere;
}

/** The numbers of the options, as wasm.rs takes them. */
export function numbered({ byteOrder = 'little', form = 'iso', srid } = {}) {
  const order = ORDERS.indexOf(byteOrder);
  if (order < 0 || !['iso', 'ewkb'].includes(form)) throw new TypeError(`no byte order or form: ${byteOrder}, ${form}`);
  const isNumber = Number.isInteger(srid) && srid >= 0 && srid < 2 ** 32;
  if (!isNumber && srid != null) throw new RangeError('an SRID has to be an integer from 0 to 4294967295');
  if (form === 'iso' && isNumber) throw new TypeError("ISO WKB has no SRID: form: 'ewkb' has one");
  return [order, form === 'iso' ? 0 : isNumber ? 2 : srid === null ? 3 : 1, srid ?? 0];
}

/** The ranges of x, y, z and m among numbers, from a place on. */
export function rangesOf(numbers, at = 0) {
  const range = (i) => ({ min: numbers[i], max: numbers[i + 1], count: numbers[i + 2] });
  return { x: range(at), y: range(at + 3), z: range(at + 6), m: range(at + 9) };
}
