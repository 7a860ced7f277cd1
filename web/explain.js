// SPDX-License-Identifier: MIT OR Apache-2.0
// What the bytes of an input mean, field by field, also of rejected ones, as far as they go.
import { DIMENSIONS, KINDS, ORDERS } from './out/package/desk.js';
import { equal, geopackageHeader, inspect } from './out/package/wkb.js';

const NOUNS = { Point: 'coordinate', LineString: 'coordinate', Ring: 'coordinate', Polygon: 'ring' };
export const nounOf = (kind) => NOUNS[kind] ?? 'member';
/** What a part is called. */
export function nameOf({ kind, number }) {
  if (kind !== 'Ring') return kind ?? 'rejected part';
  return number === 0 ? 'exterior ring' : `interior ring ${number}`;
}

export const said = (number) => number.toLocaleString('en');
export const counted = (count, noun) => `${said(count)} ${noun}${count === 1 ? '' : 's'}`;
/** A number in the fewest digits, as JavaScript has it, but with the sign of zero. */
export const spelled = (it) => Object.is(it, -0) ? '-0' : String(it).replace('Infinity', 'infinity');
/** Bytes from a place on, in spans, and what they mean; or how many of what are left out. */
const row = (at, spans, text, isBad) => ({ at, spans, text, isBad });
export const gap = (count, noun) => ({ spans: [], text: `.. ${counted(count, noun)}`, isGap: true });
const wordOf = (axis, it) => `${axis}\u00a0${spelled(it)}`;
const wordsOf = (axes) => [...axes].map((name) => ({ length: 8, name }));
/** Whether a part has coordinates of its own. */
export const isSimple = (kind) => nounOf(kind) === 'coordinate';

/** The parts with their depth, and the one that they are inside of; the rejected one is the last. */
export function readParts(bytes, front) {
  const own = bytes.subarray(front);
  const { parts: whole, error } = inspect(own);
  const parts = error ? [...whole, ...partsOfRejected(own, error, whole.length)] : whole;
  const open = [];
  for (const [index, part] of parts.entries()) {
    while (open.at(-1)?.left === 0) open.pop();
    const inside = open.at(-1) ?? null;
    Object.assign(part, { index, depth: open.length, inside, number: inside ? inside.count - inside.left-- : 0 });
    if (part.error) describe(part, own);
    else if (!isSimple(part.kind)) open.push(Object.assign(part, { left: part.count }));
  }
  return { parts, error };
}

/** The rejected part. Of a multi point that is cut off it, its whole members, and the one that is cut: the check counts
 * them before it looks at them; so they are those of a copy whose count fits. */
function partsOfRejected(own, error, index) {
  if (error.reason !== 'SHORT_MULTI_POINT') return [{ begin: error.offset, error }];
  const fields = new Fields(own, error.offset, { error });
  const front = fields.front();
  const [copy, fit] = [own.slice(), Math.floor((own.length - fields.at) / (5 + 8 * front.dimension.length))];
  new DataView(copy.buffer).setUint32(fields.at - 4, fit, fields.isLittle);
  const members = inspect(copy).parts.slice(index + 1, index + 1 + fit);
  const [begin, end] = [error.offset, members.at(-1)?.end ?? fields.at];
  return [{ ...front, begin, claims: error }, ...members, { begin: end, error }];
}

/** Gives the rejected part what there is of a part: its kind, and its whole coordinates. */
function describe(part, own) {
  const { kind, dimension, byteOrder } = part.inside ?? {};
  Object.assign(part, { count: 0 }, kind === 'Polygon' && { kind: 'Ring', dimension, byteOrder });
  const fields = new Fields(own, part.begin, part);
  const front = fields.front();
  if (!fields.goesOn) return;
  const left = Math.floor((own.length - fields.at) / (8 * front.dimension.length));
  Object.assign(part, front, { offset: fields.at, count: isSimple(front.kind) ? Math.min(front.count, left) : 0 });
}

/** What a code means. One that no geometry has here has no kind. */
function meaningOf(code) {
  const bare = code & ~0xe0000000;
  const [kind, hasSrid] = [bare < 4000 ? KINDS[bare % 1000 || 8] : undefined, (code & 0x20000000) !== 0];
  const dimension = DIMENSIONS[Math.floor(bare / 1000) | code >>> 31 | code >>> 29 & 2];
  const meaning = kind ? `: ${kind}, ${dimension}${hasSrid ? ', with an SRID' : ''}` : ', which no geometry here has';
  const text = `code ${code > 0xffff ? `0x${code.toString(16).padStart(8, '0')}` : code}${meaning}`;
  return { kind, dimension, hasSrid, text };
}

/** Reads the fields of a part in order, as many as there are and mean something. */
class Fields {
  rows = [];
  goesOn = true;

  constructor(bytes, at, part) {
    this.view = new DataView(bytes.buffer, bytes.byteOffset, bytes.byteLength);
    [this.at, this.part, this.isLittle] = [at, part, part.byteOrder === 'little'];
  }

  /** Goes past the field of a number, which it returns, and says what it means, and whether it is bad. */
  take(length, name, say) {
    const there = Math.min(length, this.view.byteLength - this.at);
    this.goesOn = there === length;
    if (!this.goesOn) {
      const text = there === 0 ? 'the input ends here' : `cut off: ${there} of ${length} bytes`;
      return this.add([{ length: there, name }], text, true);
    }
    const value = this.view[{ 1: 'getUint8', 4: 'getUint32', 8: 'getFloat64' }[length]](this.at, this.isLittle);
    this.add([{ length, name }], ...say(value));
    return value;
  }

  add(spans, text, isBad) {
    this.rows.push(row(this.at, spans, text, isBad));
    for (const { length } of spans) this.at += length;
  }

  /** The header, which a ring has of its polygon, and the count. */
  front() {
    const { kind, dimension, byteOrder } = this.part;
    const front = kind === 'Ring' ? { kind, dimension, byteOrder } : this.header();
    if (this.goesOn) front.count = front.kind === 'Point' ? 1 : this.count(front.kind);
    return front;
  }

  header() {
    const order = this.take(1, 'order', (it) =>
      it > 1 ? [`no byte order: ${it}, which is neither 0 nor 1`, true] : [`${ORDERS[it]} endian`]);
    [this.isLittle, this.goesOn] = [order === 1, order < 2];
    if (!this.goesOn) return {};
    const isCulprit = this.part.error && !this.part.error.reason.startsWith('SHORT');
    const code = this.take(4, 'code', (it) => [meaningOf(it).text, isCulprit || !meaningOf(it).kind]);
    const { kind, dimension, hasSrid } = meaningOf(code);
    this.goesOn = kind !== undefined;
    if (this.goesOn && hasSrid) this.take(4, 'srid', (it) => [`SRID ${it}`]);
    return { kind, dimension, byteOrder: ORDERS[order] };
  }

  /** A count of what the part has; if less is there, it may be the culprit. */
  count(kind) {
    const { needed, has } = this.part.claims ?? (this.part.inside?.claims ? {} : this.part.error ?? {});
    const claim = needed ? `: the part would have ${counted(needed, 'byte')}, and there are ${said(has)}` : '';
    return this.take(4, 'count', (it) => [counted(it, nounOf(kind)) + claim, Boolean(needed)]);
  }

  /** Coordinates: so many from the first on, and the last; or as many as there are, and the words of one cut off. */
  coordinates({ count, dimension }, most) {
    const size = 8 * dimension.length;
    const whole = Math.min(count, Math.floor((this.view.byteLength - this.at) / size));
    const left = Math.max(0, whole - most);
    const word = (axis, i) => wordOf(axis, this.view.getFloat64(this.at + 8 * i, this.isLittle));
    for (let i = 0; i < whole - left; i++) {
      if (left > 0 && i === most - 1) {
        this.rows.push(gap(left, 'more coordinate'));
        this.at += size * left;
      }
      this.add(wordsOf(dimension), [...dimension].map(word).join('  '));
    }
    const isCut = whole < count;
    for (const axis of isCut ? dimension : '') if (this.goesOn) this.take(8, axis, (it) => [wordOf(axis, it)]);
  }
}

/** The rows of one part: its fields, of long lists the first coordinates and the last. */
export function rowsOf(bytes, front, part, most) {
  const fields = new Fields(bytes, front + part.begin, part);
  const own = fields.front();
  if (fields.goesOn && isSimple(own.kind)) fields.coordinates(own, most);
  return fields.rows;
}

/** The row of the end of a geometry, and of the bytes behind it. */
export function endOf(bytes, front, parts) {
  if (parts.at(-1).error) return [];
  const at = front + parts[0].end;
  const length = bytes.length - at;
  const text = length > 0 ? `${counted(length, 'byte')} behind the geometry` : 'the end';
  return [row(at, [{ length, name: 'rest' }], text)];
}

/** The header of a GeoPackage's blob, if the bytes begin with one: its size, and the rows of its fields. */
export function readFront(bytes) {
  if (bytes[0] !== 0x47 || bytes[1] !== 0x50) return { size: 0, rows: [] };
  const header = geopackageHeader(bytes);
  const { axes, isEmpty, srsId } = header;
  const flags = `flags: ${ORDERS[bytes[3] & 1]} endian, ${axes || 'no'} envelope${isEmpty ? ', empty' : ''}`;
  const fields = [[0, 2, 'order', 'the header of a GeoPackage'], [2, 1, 'code', `version ${bytes[2] + 1}`],
    [3, 1, 'code', flags], [4, 4, 'srid', `SRID ${srsId}`]];
  const rows = fields.map(([at, length, name, text]) => row(at, [{ length, name }], text));
  header.envelope.forEach((range, i) => rows.push(row(8 + 16 * i, wordsOf(axes[i].repeat(2)),
    `${axes[i]} from ${range.map(spelled).join(' to ')}`)));
  return { size: header.size, rows, header };
}

/** How many bytes from a place up to another differ, and the first of them. What one input lacks differs. */
export function differing(mine, other, from, to) {
  let [count, first] = [0, -1];
  for (let i = to - 1; i >= from; i--) if (mine[i] !== other[i]) [count, first] = [count + 1, i];
  return { count, first };
}

/** Whether two inputs are one geometry, and how many of their bytes differ. */
export function compared(mine, other) {
  const { count, first } = differing(mine, other, 0, Math.max(mine.length, other.length));
  const bytes = count === 0 ? 'All bytes are the same' : `${counted(count, 'byte')} of ${said(mine.length)} and `
    + `${said(other.length)} ${count === 1 ? 'differs' : 'differ'}, the first at ${said(first)}`;
  let verdict = 'One is rejected.';
  try {
    const isSame = equal(...[mine, other].map((it) => it.subarray(readFront(it).size)));
    verdict = isSame ? 'The same geometry.' : 'Another geometry.';
  } catch { /* It is the verdict. */ }
  return `${verdict} ${bytes}.`;
}
