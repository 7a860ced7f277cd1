// SPDX-License-Identifier: MIT OR Apache-2.0
// The inspector in Chromium, by chromedriver: what it shows of inputs, good and hostile, and how long it takes.
import assert from 'node:assert/strict';
import { spawn } from 'node:child_process';
import { after, before, test } from 'node:test';

const PAGE = new URL('../out/inspector.html', import.meta.url).href;
const POINT = '0101000000000000000000f03f0000000000000040';
const BIG_POINT = '00000000013ff00000000000004000000000000000';
let driver, session;

async function call(method, path, body) {
  const { value } = await (await fetch(session + path, { method, body: body && JSON.stringify(body) })).json();
  if (value?.error) throw new Error(`${value.error}: ${value.message}`);
  return value;
}

/** Runs a function in the page, over texts. */
const run = (act, ...args) => call('POST', '/execute/sync', { script: `return (${act})(...arguments)`, args });

before(async () => {
  driver = spawn('chromedriver', ['--port=0'], { stdio: ['ignore', 'pipe', 'ignore'] });
  for await (const line of driver.stdout) {
    session = /on port (\d+)\./.exec(line)?.[1];
    if (session) break;
  }
  session = `http://127.0.0.1:${session}/session`;
  const args = ['--headless=new', '--no-sandbox', '--disable-gpu', '--disable-dev-shm-usage'];
  const capabilities = { alwaysMatch: { 'goog:chromeOptions': { args }, 'goog:loggingPrefs': { browser: 'ALL' } } };
  session += `/${(await call('POST', '', { capabilities })).sessionId}`;
  await call('POST', '/url', { url: PAGE });
});

after(() => call('DELETE', '').finally(() => driver.kill()));

/** What the page shows: texts by the ids of elements, and what there is of other things. */
const read = () => run(() => {
  const all = (selector, of = (it) => it.textContent) => Array.from(document.querySelectorAll(selector), of);
  const ids = '#verdict, #facts, #drawn, #source, #count, #summary, #compared, #row, #example';
  const texts = Object.fromEntries(all(ids, (it) => [it.id, it.value ?? it.textContent]));
  return { ...texts, isHidden: document.getElementById('found').hidden,
    rows: all('#bytes tr').length, parts: all('#parts label').length, names: all('#bytes [colspan]').join(),
    end: all('#bytes tbody:last-child td:last-child').join(), isWhole: document.getElementById('more').hidden,
    bad: all('#bytes td.bad:last-child', (it) => `${it.parentNode.cells[0].textContent} ${it.textContent}`).join('\n'),
    shapes: all('.shapes path[d*=" "]', (it) => it.getAttribute('class')).join(), forms: all('.form code').join('\n'),
    hex: all('#bytes .span').join(' '), differing: all('.differs').length };
});

/** Puts a text into the page, or pastes it if it is long, and returns what the page shows. */
async function shown(text) {
  const time = await run((text) => {
    const begin = performance.now();
    const [field, clipboardData] = [document.getElementById('text'), new DataTransfer()];
    field.value = text;
    clipboardData.setData('text/plain', text);
    const isLong = text.length > 200000;
    field.dispatchEvent(isLong ? new ClipboardEvent('paste', { clipboardData, cancelable: true }) : new Event('input'));
    return performance.now() - begin;
  }, text);
  return { ...await read(), time };
}

/** Gives a field a value, as a user does. */
const fill = (id, value, event) => run((id, value, event) => {
  const field = document.getElementById(id);
  field.value = value;
  field.dispatchEvent(new Event(event));
}, id, value, event);

/** Compares what is shown: by expressions, or as it is. */
function expect(found, expected) {
  for (const [name, it] of Object.entries(expected)) {
    if (it instanceof RegExp) assert.match(found[name], it);
    else assert.equal(found[name], it, name);
  }
}

test('the page begins with an example', async () => {
  expect(await read(), { verdict: /^Polygon, xy, SRID 4326/, example: /^0103000020/ });
});

const [ONE, NAN, LEAST, MOST] = ['000000000000f03f', '000000000000f87f', 'ffffffffffffefff', 'ffffffffffffef7f'];
// Inputs, and of what is shown the verdict, the rows that are marked, and more. Of accepted ones each byte is shown.
const CASES = [
  [POINT, 'Point, xy, little endian, 21 bytes.', '', { shapes: 'point,vertex', drawn: /: 1 coordinate\.$/,
    facts: /Coordinates1Least x1Greatest x1Least y2Greatest y2$/, end: 'the end',
    forms: [POINT, BIG_POINT, POINT, BIG_POINT, '{"type":"Point","coordinates":[1,2]}'].join('\n') }],
  [`${POINT}00`, /^Point.* 21 bytes/, '', { end: '1 byte behind the geometry', facts: /it1 more byteL/ }],
  [`47500001e6100000${POINT}`, /^Point, xy/, ''],
  ['01eb03000000000000', /^Polygon, xyz/, '', { facts: /xno numberyno numberzno number$/ }],
  [`0102000000020000000000000000000000${ONE}${ONE}${NAN}`, /^Line/, '', { shapes: 'line,vertex',
    drawn: /^1 of 2 coordinates: /, forms: /\n{"type":"LineString","coordinates":\[\[0,1\],\[1,null\]\]}$/ }],
  [`010200000002000000${LEAST.repeat(2)}${MOST.repeat(2)}`, /^Line/, '', { shapes: 'line,vertex', drawn: / 2 coord/ }],
  [`0101000000${NAN.repeat(2)}`, /^Point/, '', { shapes: '', drawn: 'There is no coordinate to draw.' }],
  [`010400000088130000${POINT.repeat(5000)}`, /^MultiPoint/, '', { shapes: 'point', isWhole: false,
    drawn: 'A sample: 2,500 of 5,000 coordinates.' }],
  ['01e8030000', /^Rejected: unknown geometry type code 1000, in/, '1 code 1000, which no geometry here has'],
  ['0201000000', /^Rejected: a byte order is neither 0 nor 1/, /^0 no byte order: 2/],
  ['0102000000ffffffff', /^Rejected: .* line string/, /^5 4,294,967,295 coordinates: .* 68,719,476,729 bytes/],
  [`010400000003000000${POINT}${BIG_POINT}${POINT.slice(0, 40)}`, /^Rejected/, /\n64 cut off: 7 of 8 bytes$/,
    { names: 'MultiPoint,member 0: Point,member 1: Point,member 2: Point', shapes: 'point,point,vertex',
      drawn: / 2 coordinates, before the fault\.$/ }],
  [`000000000400000003${POINT}00`, /^Rejected/, /^5 3 members: .*\n31 the input ends here$/,
    { names: 'MultiPoint,member 0: Point,member 1: rejected part' }],
  [`000000000200000003${'3ff0000000000000'.repeat(3)}`, /^Rejected/, /^5 3 coord.*\n33 the input ends here$/,
    { shapes: 'line bad,vertex', drawn: / 1 coordinate, before the fault\.$/ }],
  [`01030000000200000001000000${ONE.repeat(2)}0100`, /^Rejected/, /^29 cut off/,
    { names: 'Polygon,exterior ring,interior ring 1', shapes: 'area,vertex', drawn: / 1 coordinate, before/ }],
  [`010500000001000000${POINT}`, /^Rejected: a member has the wrong kind/, /^10 code 1: Point/],
  ['0107000000ffffffff'.repeat(129), /^Rejected: a collection is inside 128 others/, /^1,153 code 7/,
    { isWhole: false }],
  [`47500001e6100000${POINT.slice(0, 40)}`, /at byte 8;/, /^21 cut off/, { facts: /Begins at byte8It needs/ }],
  ['47500001', /^Rejected: the input ends inside its GeoPackage header/, undefined],
  ['<img src=x onerror=document.title=1>', /^No bytes: neither hex nor base64/, undefined],
];
for (const [text, verdict, bad, more] of CASES) {
  test(text.slice(0, 60), async () => {
    const found = await shown(text);
    const rows = bad === undefined ? { isHidden: true } : { bad, isHidden: false, isWhole: true };
    expect(found, { verdict, ...rows, ...more });
    if (bad === '' && found.isWhole) assert.equal(found.hex, text.replace(/..(?!$)/g, '$& '));
  });
}

test('more rows of a long list', async () => {
  expect(await shown(`010200000000010000${'0'.repeat(32 * 256)}`), { rows: 14, isWhole: false });
  await run(() => document.getElementById('more').click());
  expect(await read(), { rows: 38 });
});

for (const [from, to, ...words] of [['100', '110', '0000000000005940', '0000000000805b40'],
  ['1.00e+8', '2.00e+8', '0000000084d79741', '0000000084d7a741']]) {
  test(`the axes of a drawing from ${from} to ${to} say where that is`, async () => {
    await shown('010200000002000000' + words.map((it) => it.repeat(2)).join(''));
    const [d, isGrid, ...ticks] = await run(() => [document.querySelector('.line').getAttribute('d'),
      Array.from(document.querySelectorAll('.axes line'), (it) => it.getBBox()).every(({ x, y, width, height }) =>
        x >= 66 && y >= 14 && width + height > 99),
      ...Array.from(document.querySelectorAll('.axes text'), (it) =>
        [it.textContent, it.getAttribute('x'), it.getAttribute('y')])]);
    assert.ok(isGrid);
    const place = (label) => [0, 1].map((axis) => ticks.filter((it) => it[0] === label)[axis][axis + 1] - 4 * axis);
    const [[left, bottom], [right, top]] = [place(from), place(to)];
    assert.deepEqual(d.match(/[\d.]+/g).map(Number), [left, bottom, right, top].map((it) => Number(it.toFixed(2))));
    assert.ok(Math.round(top) === 30 && right > left && Math.abs(right - left - (bottom - top)) < 1e-6, d);
  });
}

test('a part that is chosen is marked where it is shown', async () => {
  await shown('010400000002000000' + POINT.repeat(2));
  const marked = await run(() => {
    document.querySelectorAll('#parts input')[2].click();
    const found = [scrollY > 0, ...Array.from(document.querySelectorAll('.is-chosen'), (it) => it.dataset.part)];
    scrollTo(0, 0);
    document.querySelector('#bytes [data-part="1"] td').click();
    return [...found, scrollY, document.querySelector('#parts :checked').value];
  });
  assert.deepEqual(marked, [true, '2', '2', 0, '1']);
});

test('a column of CSV', async () => {
  expect(await shown(`id,geom\n1,${POINT}\n2,g`), { verdict: /^Point/, count: '2' });
  assert.equal(await run(() => document.getElementById('column').selectedOptions[0].text), 'geom');
  await fill('row', '2.5', 'change');
  expect(await read(), { verdict: /^No bytes: neither/, row: '2' });
  await fill('column', '0', 'change');
  expect(await read(), { verdict: 'No bytes: an odd number of digits of hex: 1' });
});

test('another input', async () => {
  await shown(POINT);
  // Texts, what is said of each, and how many fields differ.
  const others = [[POINT, 'The same geometry. All bytes are the same.', 0],
    [BIG_POINT, 'The same geometry. 9 bytes of 21 and 21 differ, the first at 0.', 4],
    [POINT.replace('f03f', 'f83f'), 'Another geometry. 1 byte of 21 and 21 differs, the first at 11.', 1],
    [`47500001e6100000${POINT}`, 'The same geometry. 19 bytes of 21 and 29 differ, the first at 0.', 4],
    [POINT.slice(0, 40), 'One is rejected. 1 byte of 21 and 20 differs, the first at 20.', 1],
    ['xy', 'No bytes: neither hex nor base64: hex has no "x", the digit 1', 0], ['', '', 0]];
  for (const [text, compared, differing] of others) {
    await fill('other', text, 'input');
    expect(await read(), { compared, differing });
  }
});

test('a link', async () => {
  const go = (hash) => run((hash) => new Promise((resolve) => {
    addEventListener('hashchange', () => resolve(), { once: true });
    if (hash === '') document.getElementById('link').click();
    else location.hash = hash;
  }), hash);
  await shown(`${POINT}\n02`);
  await go('');
  assert.equal(await run(() => location.hash), `#hex=${POINT}`);
  expect(await read(), { count: '2' });
  for (const [hex, verdict] of [[`%30${POINT.slice(1, 20)}`, /^Rejected: the input ends inside a point/],
    [`${POINT}%ag`, 'No bytes: neither hex nor base64: hex has no "%", the digit 43']]) {
    await go(`#hex=${hex}`);
    expect(await read(), { verdict });
    await call('POST', '/refresh', {});
    expect(await read(), { verdict, example: '' });
  }
});

const LONG = {
  'a multi point of 5 MB': ['010400000000d00300' + POINT.repeat(249856), /^MultiPoint/],
  'a collection of 1 MB of empty members': ['010700000000c80100' + '010700000000000000'.repeat(116736), /^Geometry/],
  'members that each claim the rest': ['0107000000ffffffff'.repeat(128) + '010400000000000000'.repeat(60000),
    /^Rejected/],
  'many lines': [`${`${POINT}\n`.repeat(50000)}02\n02`, /^Point/],
};
for (const [name, [text, verdict]] of Object.entries(LONG)) {
  test(name, async (it) => {
    const found = await shown(text);
    expect(found, { verdict, source: /^pasted: / });
    assert.ok(found.rows < 1200 && found.parts <= 300, `${found.rows} rows, ${found.parts} parts`);
    // On a quiet machine it takes less than a tenth of this.
    assert.ok(found.time < 30000, `${found.time} ms`);
    it.diagnostic(`${Math.round(found.time)} ms`);
  });
}

test('the next rejected of those lines', async () => {
  for (const row of ['50001', '50002', '50001']) {
    await run(() => document.getElementById('next-bad').click());
    expect(await read(), { row, verdict: /^Rejected: /, summary: '2 rejected' });
  }
});

test('a file of 5 MB', async () => {
  await run(async () => {
    const [bytes, dataTransfer] = [new Uint8Array(9 + 16 * 327680), new DataTransfer()];
    bytes.set([1, 2, 0, 0, 0, 0, 0, 5, 0]);
    dataTransfer.items.add(new File([bytes], '<i>name</i>.wkb'));
    document.dispatchEvent(new DragEvent('drop', { dataTransfer }));
    const source = document.getElementById('source');
    while (!source.textContent.includes('byte')) await new Promise((resolve) => { setTimeout(resolve, 50); });
  });
  expect(await read(), { verdict: /5,242,889 bytes/, drawn: /^A sample: .* of 327,680 coordinates/,
    source: '<i>name</i>.wkb, 5,242,889 bytes' });
});

test('nothing is loaded, logged or made HTML', async () => {
  assert.deepEqual(await call('POST', '/se/log', { type: 'browser' }), []);
  assert.deepEqual(await run(() => performance.getEntriesByType('resource')), []);
  assert.deepEqual(await run(() => [...document.querySelectorAll('img, i')]), []);
});

test('a file that cannot be read', async () => {
  await run(() => {
    const file = { name: 'a.wkb', arrayBuffer: () => Promise.reject(new Error('it is gone')) };
    document.getElementById('file').onchange({ target: { files: [file] } });
  });
  expect(await read(), { verdict: 'No bytes: it is gone', source: 'a.wkb', isHidden: true });
});
