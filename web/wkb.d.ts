// SPDX-License-Identifier: MIT OR Apache-2.0
export type Bytes = ArrayBufferView | ArrayBufferLike;
export type Kind = Geometry['type'];
export type Dimension = 'xy' | 'xyz' | 'xym' | 'xyzm';
export type ByteOrder = 'big' | 'little';
export type Reason = 'SHORT_HEADER' | 'INVALID_BYTE_ORDER' | 'CODE_OUT_OF_RANGE' | 'INCORRECT_TYPE'
  | 'NESTING_DEPTH_EXCEEDED' | 'SHORT_POINT' | 'SHORT_LINE_STRING' | 'SHORT_MULTI_POINT' | 'SHORT_LINEAR_RING'
  | 'NO_HEADER';
export type Position = number[];
export type Geometry =
  | { type: 'Point'; coordinates: Position }
  | { type: 'LineString' | 'MultiPoint'; coordinates: Position[] }
  | { type: 'Polygon' | 'MultiLineString'; coordinates: Position[][] }
  | { type: 'MultiPolygon'; coordinates: Position[][][] }
  | { type: 'GeometryCollection'; geometries: Geometry[] };

/** The kinds by their numbers, of which 0 is a ring, and the dimensions by theirs. */
export const KINDS: readonly (Kind | 'Ring')[];
export const DIMENSIONS: readonly Dimension[];
/** The names of the statuses of a column's rows: 0 is 'OK', 16 'NULL_ROW', 17 'BAD_OFFSETS', others are reasons. */
export const STATUSES: Readonly<Record<number, string>>;

/** Why bytes are rejected: the first fault from their start on. */
export class WkbError extends Error {
  readonly reason: Reason;
  /** The rejected part: how many geometries and rings begin before it. */
  readonly part: number;
  /** The byte at which that part begins. */
  readonly offset: number;
  /** Of CODE_OUT_OF_RANGE: the type code. */
  readonly code: number | null;
  /** Of a part that is cut off inside its coordinates: how many bytes it needs, and has, from `offset` on. */
  readonly needed: number | null;
  readonly has: number | null;
}

export interface Header<K = Kind> {
  kind: K;
  dimension: Dimension;
  byteOrder: ByteOrder;
  srid: number | null;
}
export interface Found extends Header {
  /** Its length in bytes; bytes after it aren't looked at. */
  size: number;
  parts: number;
  /** A point has one, an empty point too. */
  coordinates: number;
}
export interface Part extends Header<Kind | 'Ring'> {
  begin: number;
  end: number;
  /** Where its own coordinates, rings or members begin, and how many there are. */
  offset: number;
  count: number;
  /** The index of the part after all that is inside it. */
  next: number;
}
/** Without NaNs. Where there is no number it is from Infinity to -Infinity. */
export type Range = { min: number; max: number; count: number };
export type Bounds = { x: Range; y: Range; z: Range; m: Range };

export interface WriteOptions {
  /** By default 'little'. */
  byteOrder?: ByteOrder;
  /** By default 'iso', which has no SRID. */
  form?: 'iso' | 'ewkb';
  /** Of 'ewkb' alone: a number, null for none; by default the geometry's own. */
  srid?: number | null;
}
export interface GeopackageHeader {
  /** Where the geometry begins. */
  size: number;
  /** The SRID; 0 and -1 stand for undefined ones. */
  srsId: number;
  isEmpty: boolean;
  axes: '' | Dimension;
  /** Of each axis the least and the greatest number, as the header says. */
  envelope: [number, number][];
}

/** Compiles the code ahead, and not on this thread. */
export function start(): Promise<void>;
/** Reads hex, also behind \x or 0x or as X'..', or base64. Throws a SyntaxError for another text. */
export function bytesOf(text: string): Uint8Array;
/** Each call throws a WkbError for rejected bytes, a TypeError or RangeError for wrong arguments or want of memory. */
export function check(bytes: Bytes): Found;
export function bounds(bytes: Bytes): Bounds;
/** Lists the geometry, its rings and members at every level, in preorder. */
export function parts(bytes: Bytes): Part[];
/** As `parts`; of rejected bytes the error, and the parts before the rejected one, whose `end` and `next` are those
 * without rings and members. */
export function inspect(bytes: Bytes): { parts: Part[]; error: WkbError | null };
/** Copies the coordinates of a ring, a point or a line string of these bytes, bit for bit. */
export function words(bytes: Bytes, part: Part): Float64Array;
/** Leaves out M and SRIDs. An empty point has no coordinates. */
export function toGeoJSON(bytes: Bytes): Geometry;
/** All positions have to have two numbers, or all three; of a collection those of each member by itself. */
export function fromGeoJSON(geometry: Geometry, options?: WriteOptions): Uint8Array;
/** Writes the one encoding that a geometry has under the options. */
export function write(bytes: Bytes, options?: WriteOptions): Uint8Array;
/** Writes the key: two geometries have the same one exactly if they are equal. */
export function canonical(bytes: Bytes): Uint8Array;
/** Compares coordinates bit for bit; byte orders and SRIDs don't count. */
export function equal(a: Bytes, b: Bytes): boolean;
export function geopackageHeader(blob: Bytes): GeopackageHeader;

export interface Facts {
  rows: number;
  accepted: number;
  nullRows: number;
  /** How many are rejected for their bytes. The rest has bad offsets. */
  refused: number;
  types: { kind: Kind; dimension: Dimension; rows: number }[];
  bounds: Bounds;
  /** The SRIDs that occur, in order, and how many geometries have none. */
  srids: number[];
  withoutSrid: number;
}
/** Coordinates one after another; row i has the singles (points, line strings, polygons) from rows[i] up to rows[i + 1],
 * a single so has rings, and a ring coordinates. Null and rejected rows have none. */
export interface Coordinates {
  values: Float64Array;
  rows: Int32Array;
  singles: Int32Array;
  rings: Int32Array;
  statuses: Uint8Array;
}
/** GeoArrow's buffers, interleaved: the offsets of its lists from the outermost on, and a bit for each row. */
export interface GeoArrow {
  kind: Kind;
  dimension: Dimension;
  values: Float64Array;
  offsets: Int32Array[];
  validity: Uint8Array;
}

/** A column as Arrow has it: row i has the bytes of the data from offset i up to offset i + 1. Offsets may be anything:
 * a row whose offsets are bad is 17. Each call answers for all rows; its statuses say why a row has no result. */
export class Column {
  /** Takes a validity bitmap, least significant bit first, 0 for a null row; the first row's bit is `first`. */
  constructor(data: Bytes, offsets: Int32Array | BigInt64Array, nulls?: { validity?: Bytes | null; first?: number });
  /** Copies rows, of which null and undefined are null rows. */
  static of(rows: Iterable<Bytes | null | undefined>): Column;
  readonly length: number;
  check(): Uint8Array;
  facts(): Facts;
  /** Gives eight numbers a row: the least and the greatest x, y, z and m, or Infinity and -Infinity. */
  bounds(): { bounds: Float64Array; statuses: Uint8Array };
  /** Gives the coordinates of all rows in one array; what a geometry doesn't have is NaN. By default 'xy'. */
  coordinates(dimension?: Dimension): Coordinates;
  /** Gives the rows as GeoArrow has those of one kind, or of its multi kind if both occur; else a TypeError. A null
   * point is NaNs. The dimension is one that has all ordinates which occur, unless it is given. */
  geoArrow(dimension?: Dimension): GeoArrow;
  /** Writes the encodings one after another, as `write` makes each. */
  write(options?: WriteOptions): { data: Uint8Array; offsets: Int32Array; statuses: Uint8Array };
}
