// SPDX-License-Identifier: MIT OR Apache-2.0
// The package over c/test/lasting.rows, what its types say besides, and what the inspector says of bytes.
import assert from 'node:assert/strict';
import { execFileSync, spawnSync } from 'node:child_process';
import { readFileSync, writeFileSync } from 'node:fs';
import { createRequire } from 'node:module';
import { test } from 'node:test';
import { fileURLToPath } from 'node:url';
import { inspect } from 'node:util';
import { runInNewContext } from 'node:vm';
import { readFront, readParts, rowsOf } from '../explain.js';
import { columnsOf, inputsOf, textOf } from '../input.js';
import * as wkb from '../out/package/wkb.js';

const { DIMENSIONS, bytesOf } = wkb;
const ORDERS = ['big', 'little'];
const HEX = '0101000000000000000000f03f0000000000000040';
const POINT = bytesOf(HEX);
const [PACKAGE, DESK] = ['wkb', 'desk'].map((it) => new URL(`../out/package/${it}.js`, import.meta.url).href);
const file = readFileSync(new URL('../../c/test/lasting.rows', import.meta.url), 'utf8');
const ROWS = file.split('\n').filter((it) => it && !it.startsWith('#')).map((line) => {
  const [hex, status, ...rest] = line.split(' ');
  const fields = rest.slice(0, status === '0' ? 11 : 5).map(Number);
  return { input: bytesOf(hex), status: Number(status), fields, sums: rest.slice(fields.length) };
});
const ACCEPTED = ROWS.filter((it) => it.status === 0);
const REASONS = { 32: 'SHORT_HEADER', 33: 'INVALID_BYTE_ORDER', 34: 'CODE_OUT_OF_RANGE', 35: 'INCORRECT_TYPE',
  36: 'NESTING_DEPTH_EXCEEDED', 48: 'SHORT_POINT', 49: 'SHORT_LINE_STRING', 50: 'SHORT_MULTI_POINT',
  51: 'SHORT_LINEAR_RING' };

/** FNV-1a in 32 bits, of bytes or of numbers in eight or four bytes. */
function summed(...all) {
  let sum = 0x811c9dc5;
  for (const it of all) {
    for (const byte of new Uint8Array(it.buffer, it.byteOffset, it.byteLength)) sum = Math.imul(sum ^ byte, 0x01000193);
  }
  return (sum >>> 0).toString(16).padStart(8, '0');
}

function options(number) {
  const srid = [undefined, undefined, 4326, null][number % 4];
  return { byteOrder: ORDERS[number >> 2], form: number % 4 === 0 ? 'iso' : 'ewkb', srid };
}

const partSum = (it) => [BigUint64Array.of(...[it.begin, it.end, it.offset, it.count, it.next].map(BigInt)),
  Uint32Array.of(it.srid ?? 0, it.srid === null ? 0 : 1, wkb.KINDS.indexOf(it.kind), DIMENSIONS.indexOf(it.dimension),
    it.dimension.length, ORDERS.indexOf(it.byteOrder))];

test('rejected rows', () => {
  const calls = [wkb.check, wkb.bounds, wkb.parts, wkb.toGeoJSON, wkb.write, wkb.canonical,
    (it) => wkb.equal(it, POINT), (it) => wkb.equal(POINT, it)];
  for (const { input, status, fields } of ROWS.filter((it) => it.status !== 0)) {
    const [part, offset, end, length, code] = fields;
    const [needed, has] = status >= 48 ? [end, length] : [null, null];
    const { parts, error } = wkb.inspect(input);
    const why = { name: 'WkbError', message: error.message, reason: REASONS[status], part, offset, needed, has,
      code: status === 34 ? code : null };
    for (const call of calls) assert.throws(() => call(input), why);
    assert.equal(parts.length, part);
    parts.forEach((it, i) => assert.deepEqual([it.next, it.end], [i + 1, parts[i + 1]?.begin ?? offset]));
  }
});

test('accepted rows, each also as a column', () => {
  for (const { input, fields, sums } of ACCEPTED) {
    const [size, parts, coordinates, , , srid, hasSrid, kind, dimension, , order] = fields;
    assert.deepEqual(wkb.check(input), { kind: wkb.KINDS[kind], dimension: DIMENSIONS[dimension],
      byteOrder: ORDERS[order], srid: hasSrid ? srid : null, size, parts, coordinates });
    const column = wkb.Column.of([input]);
    const { bounds: ofColumn } = column.bounds();
    for (let i = 0; i < 8; i++) {
      const written = wkb.write(input, options(i));
      assert.deepEqual([summed(written), summed(column.write(options(i)).data)], [sums[i], sums[i]]);
      assert.ok(wkb.equal(written, input));
    }
    const ranges = Object.values(wkb.bounds(input));
    const bounds = ranges.flatMap((it) => [Float64Array.of(it.min, it.max), BigUint64Array.of(BigInt(it.count))]);
    assert.equal(summed(...bounds), sums[8]);
    assert.deepEqual([...ofColumn], ranges.flatMap((it) => [it.min, it.max]));
    const table = wkb.parts(input);
    assert.equal(summed(...table.flatMap(partSum)), sums[9]);
    const view = new DataView(input.buffer);
    for (const it of table) {
      const words = new BigUint64Array(wkb.words(input, it).buffer);
      assert.equal(words.length, wkb.KINDS.indexOf(it.kind) < 3 ? it.count * it.dimension.length : 0);
      words.forEach((word, i) => assert.equal(word, view.getBigUint64(it.offset + 8 * i, it.byteOrder === 'little')));
    }
    const [xy, ...others] = DIMENSIONS.map((it) => column.coordinates(it));
    const ends = [xy.rings, xy.singles].map((it) => BigUint64Array.from(it.subarray(1), BigInt));
    assert.equal(summed(...[xy, ...others].map((it) => it.values), ...ends), sums[10]);
  }
});

test('all rows as a column, with a null row behind each', () => {
  const rows = ROWS.flatMap((it) => [it.input, it.input]);
  let size = 0;
  const offsets = BigInt64Array.of(0n, ...rows.map((it) => BigInt(size += it.length)));
  const validity = Uint8Array.from(ROWS, () => 0xaa);
  const column = new wkb.Column(Buffer.concat(rows), offsets, { validity, first: 1 });
  const statuses = ROWS.flatMap((it) => [it.status, 16]);
  const [bounds, written] = [column.bounds(), column.write(options(0))];
  const others = [column.check(), column.coordinates().statuses, column.write().statuses];
  for (const it of [bounds.statuses, written.statuses, ...others]) assert.deepEqual([...it], statuses);
  ROWS.forEach(({ status, sums }, i) => {
    assert.equal(status === 0 ? summed(written.data.subarray(...written.offsets.subarray(2 * i))) : undefined, sums[0]);
  });
  const facts = column.facts();
  assert.deepEqual([facts.rows, facts.accepted, facts.nullRows, facts.refused],
    [2 * ROWS.length, 672, ROWS.length, ROWS.length - 672]);
  assert.equal(facts.types.reduce((sum, it) => sum + it.rows, 0), ACCEPTED.length);
  const srids = ACCEPTED.filter((it) => it.fields[6] === 1).map((it) => it.fields[5]);
  assert.deepEqual(facts.srids, [...new Set(srids)].sort((a, b) => a - b));
  assert.equal(facts.withoutSrid, ACCEPTED.length - srids.length);
});

const of = (type, coordinates) => ({ type, coordinates });
test('GeoJSON', () => {
  const geometries = {
    '0101000000000000000000f87f000000000000f87f': of('Point', []),
    '01d1070000000000000000f87f000000000000f87f000000000000f03f': of('Point', [NaN, NaN]),
    '01b90b0000000000000000f03f0000000000000040000000000000f8ff0000000000000840': of('Point', [1, 2, NaN]),
    '01d2070000010000000000000000000040000000000000084000000000000010c0': of('LineString', [[2, 3]]),
    '0000000003000000020000000000000001bff00000000000003ff0000000000000': of('Polygon', [[], [[-1, 1]]]),
    '01040000000100000001010000000000000000000000000000000000f03f': of('MultiPoint', [[0, 1]]),
    '01060000000100000001030000000100000000000000': of('MultiPolygon', [[[]]]),
    '010700000002000000010700000000000000010500000000000000': { type: 'GeometryCollection', geometries: [
      { type: 'GeometryCollection', geometries: [] }, of('MultiLineString', [])] },
  };
  for (const [hex, geometry] of Object.entries(geometries)) assert.deepEqual(wkb.toGeoJSON(bytesOf(hex)), geometry);
});

test('GeoJSON there and back', () => {
  const isLike = ({ input, fields: { 8: dimension } }) => dimension < 2
    && wkb.parts(input).every((part) => part.dimension === DIMENSIONS[dimension]);
  for (const { input } of ACCEPTED.filter(isLike)) {
    const geometry = wkb.toGeoJSON(input);
    assert.deepEqual(wkb.toGeoJSON(wkb.fromGeoJSON(geometry)), geometry);
  }
  const polygon = of('Polygon', [[[0, 0], [4, 0], [2, 3], [0, 0]], []]);
  const written = wkb.fromGeoJSON(polygon, { byteOrder: 'big', form: 'ewkb', srid: 3857 });
  assert.deepEqual([written[0], wkb.check(written).srid, wkb.toGeoJSON(written)], [0, 3857, polygon]);
  const collection = { type: 'GeometryCollection', geometries: [of('Point', [1, 2, 3]), of('Point', [4, 5])] };
  assert.deepEqual(wkb.parts(wkb.fromGeoJSON(collection)).map((it) => it.dimension), ['xyz', 'xyz', 'xy']);
});

test('the code names no folder of this machine, so that each build of it is the same', () => {
  const code = readFileSync(new URL('../out/wkb.wasm', import.meta.url));
  assert.equal(code.includes(fileURLToPath(new URL('../..', import.meta.url))), false);
});

const MODULE = 'porchsorrel-wkb';
const PAGE = readFileSync(new URL('../README.md', import.meta.url), 'utf8');
const EXAMPLE = [...PAGE.matchAll(/```js\n([^]*?)```/g)].map((it) => it[1]).join('');
test('the examples of the page', async () => {
  await import(`data:text/javascript,${encodeURIComponent(EXAMPLE.replaceAll(MODULE, PACKAGE))}`);
});

test('by require, where Node.js has that', { skip: !process.features.require_module }, () => {
  assert.equal(createRequire(import.meta.url)('../out/package/wkb.js').check(POINT).size, 21);
});

test('a call that traps: a product that overflows', async () => {
  const own = await import(`${DESK}?own`);
  const at = own.put(new Uint8Array(77), 1);
  // The offsets are said to have 4 GB, where their place is: so eight numbers a row are more than 32 bits count.
  const there = new Uint32Array(own.viewThere.buffer);
  there.forEach((it, i) => { if (it === 77 && there.subarray(i - 2, i).includes(at)) there[i] = 2 ** 32 - 1; });
  const isTrap = (why) => why instanceof WebAssembly.RuntimeError && /unreachable/.test(why.message);
  assert.throws(() => own.run('wkb_column_bounds', 4, -1), isTrap);
  assert.equal(own.over(POINT, 'wkb_check')[4], 21);
  assert.notEqual(own.viewThere.buffer, there.buffer);
});

test('memory that is refused', () => {
  const code = `import * as wkb from '${PACKAGE}';
    const point = Uint8Array.of(${POINT});
    const long = Uint8Array.from([1, 4, 0, 0, 0, 32, 78, 0, 0, ...Array(2e4).fill([...point]).flat()]);
    const rows = wkb.Column.of(Array(2e5).fill(wkb.bytesOf('010200000000000000')));
    for (const call of [() => wkb.check(new Uint8Array(8e6)), () => wkb.inspect(long), () => wkb.toGeoJSON(long),
      () => rows.bounds(), () => rows.write()]) {
      try { call(); console.log('no error'); } catch (why) { if (why.name !== 'RangeError') console.log(why); }
      if (wkb.check(long).parts !== 20001 || wkb.canonical(point).length !== 21) console.log('wrong');
    }`;
  const words = ['--wasm-max-mem-pages=64', '--input-type=module', '--eval', code];
  assert.equal(execFileSync(process.execPath, words, { encoding: 'utf8' }), '');
});

test('started beside the main thread', async (it) => {
  it.mock.method(WebAssembly, 'Module', () => { throw new Error('compiled at once'); });
  const own = await import(`${DESK}?started`);
  await Promise.all([own.start(), own.start()]);
  assert.equal(own.over(POINT, 'wkb_check')[4], 21);
});

const geoArrow = (geometries) => wkb.Column.of(geometries.map((it) => it && wkb.fromGeoJSON(it))).geoArrow();
test('a column as GeoArrow', () => {
  const [square, hole] = [[[0, 0], [4, 0], [4, 4], [0, 0]], [[1, 1], [2, 1], [1, 1]]];
  const [polygon, line, point] = [of('Polygon', [square, hole]), of('LineString', hole), of('Point', [7, 8, 9])];
  const columns = [
    ['Polygon', [polygon, of('Polygon', [hole])], [0, 2, 3], [0, 4, 7, 10]],
    ['LineString', [of('LineString', square), null, line], [0, 4, 4, 7]],
    ['MultiLineString', [of('MultiLineString', [square, hole]), line], [0, 2, 3], [0, 4, 7, 10]],
    ['MultiPoint', [of('MultiPoint', hole), point], [0, 3, 4]],
    ['Point', [point, null, of('Point', [4, 5])]],
    ['MultiPolygon', [polygon, null, of('MultiPolygon', [[hole], [square]])], [0, 1, 1, 3], [0, 2, 3, 4],
      [0, 4, 7, 10, 14]],
  ];
  const found = columns.map(([, rows]) => geoArrow(rows));
  found.forEach(({ kind, offsets }, i) => {
    const [expected, , ...ofLists] = columns[i];
    assert.deepEqual([kind, ...offsets.map((it) => [...it])], [expected, ...ofLists]);
  });
  const [points, polygons] = found.slice(-2);
  assert.deepEqual([points.dimension, ...points.values], ['xyz', 7, 8, 9, NaN, NaN, NaN, 4, 5, NaN]);
  assert.deepEqual([...polygons.validity, ...polygons.values.subarray(8, 14)], [5, ...hole.flat()]);
});

test('offsets of no meaning', () => {
  const checked = (offsets) => [...new wkb.Column(POINT, offsets).check()];
  assert.deepEqual(checked(BigInt64Array.of(0n, 21n, 2n ** 32n, 2n ** 32n + 21n, -1n)), [0, 17, 17, 17]);
  assert.deepEqual([checked(Int32Array.of(0, 21, 20, 21)), checked(new Int32Array())], [[0, 17, 17], []]);
  const growing = new SharedArrayBuffer(21, { maxByteLength: 42 });
  new Uint8Array(growing).set(POINT);
  const column = new wkb.Column(growing, Int32Array.of(0, 21, 42));
  growing.grow?.(42);
  assert.deepEqual([...column.check()], [0, 17]);
});

test('wrong arguments', () => {
  const validity = Uint8Array.of(1);
  const wrong = [
    [TypeError, wkb.check, null, 'ab', [1, 2]],
    [TypeError, (it) => wkb.write(POINT, it), { byteOrder: 'middle' }, { form: 'wkt' }, { srid: 4326 },
      { form: 'iso', srid: 0 }],
    [RangeError, (srid) => wkb.write(POINT, { form: 'ewkb', srid }), -1, 1.5, 2 ** 32],
    [TypeError, wkb.fromGeoJSON, null, {}, { type: 'FeatureCollection' }, of('Ring', [])],
    [TypeError, (it) => wkb.fromGeoJSON(of('Point', it)), [1], [1, '2'], ['1', '2'], [null, null], [[1, 2]], [1, , 3]],
    [TypeError, (it) => wkb.fromGeoJSON(of('LineString', it)), [[1, 2], [1, 2, 3]], ['ab'], [1, 2], [null]],
    [TypeError, (it) => new wkb.Column(POINT, it), [0, 21], new Float64Array(2)],
    [RangeError, (it) => wkb.words(POINT.subarray(0, 13), it), wkb.check(POINT), wkb.parts(POINT)[0]],
    [RangeError, (first) => new wkb.Column(POINT, Int32Array.of(0, 21), { validity, first }).check(), -1, 0.5, 8],
    [TypeError, (it) => wkb.Column.of([POINT]).coordinates(it), 'zm'],
    [TypeError, (it) => wkb.Column.of([POINT]).geoArrow(it), 'zm'],
    [TypeError, geoArrow, [], [of('Point', [1, 2]), of('LineString', [])],
      [{ type: 'GeometryCollection', geometries: [] }]],
  ];
  for (const [Kind, call, ...all] of wrong) for (const it of all) assert.throws(() => call(it), Kind);
  assert.throws(() => wkb.fromGeoJSON({ type: 'Feature', geometry: of('Point', [1, 2]) }), /give the geometry/);
});

const hasTsc = spawnSync('tsc', ['--version']).status === 0;
test('the types of the example, and of what calls give', { skip: !hasTsc && 'there is no tsc' }, () => {
  const [column, { error: { name, ...why } }] = [wkb.Column.of([POINT]), wkb.inspect(POINT.subarray(1))];
  const [, ...methods] = Object.getOwnPropertyNames(wkb.Column.prototype);
  const named = (...names) => Object.fromEntries(names.map((it) => [it, 1]));
  const all = {
    'Record<keyof typeof wkb, 1>': named(...Object.keys(wkb)),
    'Record<keyof wkb.Column, 1>': named('length', ...methods),
    'Omit<wkb.WkbError, keyof Error>': why,
    'wkb.Found': wkb.check(POINT),
    'wkb.Part[]': wkb.parts(POINT),
    'wkb.Bounds': wkb.bounds(POINT),
    'wkb.GeopackageHeader': wkb.geopackageHeader(bytesOf('47500000ffffffff')),
    'wkb.Facts': column.facts(),
    'wkb.Coordinates': column.coordinates(),
    'wkb.GeoArrow': column.geoArrow(),
  };
  const codeOf = (it) => inspect(it, { depth: null }).replace(/(\w+Array)\(\d+\) \[.*?\]/g, 'new $1()');
  const code = [`import * as wkb from '${MODULE}'`, EXAMPLE.replace(/^import assert.*/m, 'declare const assert: any'),
    ...Object.entries(all).map(([type, it], i) => `const it${i}: ${type} = ${codeOf(it)}`)].join(';\n');
  const to = fileURLToPath(new URL('../out/example.ts', import.meta.url));
  writeFileSync(to, code.replaceAll(MODULE, './package/wkb.js').replaceAll('(error)', '(error: any)'));
  const words = ['--noEmit', '--strict', '--target', 'es2022', '--moduleResolution', 'node', to];
  const { status, stdout } = spawnSync('tsc', words, { encoding: 'utf8' });
  assert.equal(status, 0, stdout);
});

test('inputs of many kinds, and those that claim much', () => {
  const views = [POINT.buffer, new DataView(Uint8Array.of(7, ...POINT).buffer, 1)];
  assert.deepEqual(views.map((it) => wkb.check(it).kind), ['Point', 'Point']);
  class Liar extends Uint8Array { get length() { return 1; } }
  assert.equal(wkb.check(Liar.from(POINT)).size, 21);
  class Busy extends Uint8Array { get buffer() { return wkb.equal(POINT, POINT) && super.buffer; } }
  const other = bytesOf('010200000000000000');
  assert.deepEqual([wkb.equal(Busy.from(POINT), other), wkb.equal(other, Busy.from(POINT))], [false, false]);
  const busy = { get byteOrder() { return wkb.check(other) && 'little'; } };
  assert.deepEqual(wkb.write(POINT, busy), POINT);
  assert.deepEqual([...new wkb.Column(Busy.from(POINT), Int32Array.of(0, 21), { validity: Busy.of(1) }).check()], [0]);
  const big = Buffer.from(wkb.write(POINT, { byteOrder: 'big' }));
  assert.deepEqual([...wkb.words(big, wkb.parts(big)[0])], [1, 2]);
  assert.equal(big.readDoubleBE(5), 1);
  const { buffer } = runInNewContext('Uint8Array.of(1, 7, 0, 0, 0, 0, 0, 0, 0)');
  assert.equal(wkb.check(buffer).kind, 'GeometryCollection');
  assert.deepEqual(wkb.write(POINT, { srid: null }), POINT);
  const claiming = wkb.inspect(bytesOf('0107000000ffffffff'.repeat(128) + '0103000000ffffffff'));
  assert.deepEqual([claiming.parts.length, claiming.error.reason], [129, 'SHORT_HEADER']);
});

test('each byte of each row', () => {
  assert.equal(ROWS.length, 1387);
  for (const { input, status, fields: [size] } of ROWS) {
    const { parts, error } = readParts(input, 0);
    for (const it of status === 0 ? parts : []) {
      const around = parts.filter((other) => other.index < it.index && it.index < other.next);
      assert.deepEqual([it.depth, it.inside], [around.length, around.at(-1) ?? null]);
    }
    let [at, bad] = [0, []];
    for (const part of parts) {
      const rows = rowsOf(input, 0, part, Infinity);
      assert.deepEqual(rowsOf(input, 0, part, 2).at(-1), rows.at(-1));
      for (const row of rows) {
        assert.equal(row.at, at);
        for (const span of row.spans) at += span.length;
        if (row.isBad) bad.push(part);
      }
    }
    if (status === 0) assert.deepEqual([at, bad.length, error], [size, 0, null]);
    else assert.ok(bad.length > 0 && bad.every((it) => it.error === error || it.claims === error));
    if (error?.reason.startsWith('SHORT') && error.reason !== 'SHORT_MULTI_POINT') assert.equal(at, input.length);
    for (const it of parts.slice(0, -1).filter(({ kind }) => kind !== 'Ring')) {
      const { text } = rowsOf(input, 0, it, 0)[1];
      assert.deepEqual(/: (\w+), (\w+)/.exec(text).slice(1), [it.kind, it.dimension]);
    }
  }
});

test('texts', () => {
  for (const it of [HEX, `\\x${HEX}`, `\\\\x${HEX}`, `0x${HEX}`, `x'${HEX}'`, ` "${HEX.toUpperCase()}"\r\n`,
    'AQEAAAAAAAAAAADwPwAAAAAAAPC_', 'AQEAAAAA\nAAAAAADwPwAAAAAAAABA',
    'AAAAAAEAAAAAAAAAAAAAAAAAAAAA']) assert.equal(bytesOf(it).length, 21);
  assert.deepEqual(['A0', '0xAAAA'].map((it) => [...bytesOf(it)]), [[0xa0], [0xaa, 0xaa]]);
  const blob = `4750000100000000${HEX}`;
  assert.deepEqual(bytesOf(Buffer.from(blob, 'hex').toString('base64')), bytesOf(blob));
  for (const it of ['g', '0', 'Ag==', 'POINT (1 2)', '<b>']) assert.throws(() => bytesOf(it));
  assert.deepEqual(inputsOf(`${HEX}\n\n${HEX}\n`), [HEX, HEX]);
  for (const it of [HEX, `47500000ffffffff${HEX}`]) {
    assert.deepEqual(inputsOf(`${it.slice(0, 20)}\n${it.slice(20)}`), [it]);
  }
  assert.deepEqual(inputsOf('01\n02'), ['01', '02']);
  const table = `id;name;geom\n1;"a; ""b""";${HEX}\r\n2;;"${HEX}"\n`;
  assert.deepEqual(columnsOf(table), [{ name: 'id', cells: ['1', '2'] }, { name: 'name', cells: ['a; "b"', ''] },
    { name: 'geom', cells: [`${HEX}\r`, HEX] }]);
  assert.equal(columnsOf(`a,b\n1,"${'0'.repeat(1.2e7)}"`)[1].cells[0].length, 1.2e7);
  assert.deepEqual(columnsOf(`${HEX},1\n${HEX}`).map((it) => it.name), ['column 1', 'column 2']);
  assert.deepEqual([columnsOf(HEX), columnsOf(`${HEX}\n${HEX}`), columnsOf('')], [[], [], []]);
  const [utf8, utf16] = ['utf8', 'utf16le'].map((it) => Uint8Array.from(Buffer.from(`\ufeff${HEX}`, it)));
  const files = [POINT, new TextEncoder().encode(HEX), utf8, utf16];
  assert.deepEqual(files.map(textOf), [null, HEX, HEX, HEX]);
});

test('the header of a blob of a GeoPackage', () => {
  const { size, rows, header } = readFront(bytesOf(`47500003e6100000${'000000000000f03f0000000000000040'.repeat(2)}`));
  assert.equal(size, 40);
  assert.deepEqual(header, { size, srsId: 4326, isEmpty: false, axes: 'xy', envelope: [[1, 2], [1, 2]] });
  const { srsId, isEmpty } = readFront(bytesOf('47500010ffffffff')).header;
  assert.deepEqual([srsId, isEmpty], [-1, true]);
  assert.deepEqual(rows.map((it) => [it.at, it.spans.reduce((sum, { length }) => sum + length, 0), it.text]), [
    [0, 2, 'the header of a GeoPackage'], [2, 1, 'version 1'], [3, 1, 'flags: little endian, xy envelope'],
    [4, 4, 'SRID 4326'], [8, 16, 'x from 1 to 2'], [24, 16, 'y from 1 to 2']]);
});
