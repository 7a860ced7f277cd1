// SPDX-License-Identifier: MIT OR Apache-2.0
// The inspector: what is put into the page is put as text, never as HTML.
import { bounds, bytesOf, check, toGeoJSON, write } from './out/package/wkb.js';
import { columnsOf, inputsOf, isGeometry, textOf } from './input.js';
import { compared, counted, differing, endOf, gap, nameOf, nounOf, readFront, readParts, rowsOf, said, spelled
} from './explain.js';
import { draw } from './drawing.js';

const MOST = { typed: 200000, parts: 300, rows: 400, hex: 4000, checked: 100000, link: 20000 };
const $ = (id) => document.getElementById(id);
/** The inputs, as texts or bytes; which of them are rejected; and what there is of the one that is shown. */
const state = { inputs: [], bad: [], columns: [], bytes: null, front: null, parts: [], rows: 0 };

/** An element with a class, and texts or elements in it. */
function make(name, className, ...children) {
  const it = document.createElement(name);
  if (className) it.className = className;
  it.append(...children);
  return it;
}

const hexOf = (bytes) => Array.from(bytes, (it) => it.toString(16).padStart(2, '0')).join('');
const problemOf = (error) => `${error.name === 'WkbError' ? 'Rejected' : 'No bytes'}: ${error.message}`;

function say(text, isBad) {
  $('verdict').textContent = text;
  $('verdict').classList.toggle('bad', isBad);
}

/** Says why there is nothing to show. */
function fail(error) {
  $('found').hidden = $('link').hidden = true;
  say(problemOf(error), true);
}

/** Takes inputs, of which it shows the first, and says how many of them are rejected. */
function take(inputs, source = '') {
  const checked = inputs.length > 1 ? inputs.slice(0, MOST.checked) : [];
  const bad = [...checked.keys()].filter((i) => !isGeometry(checked[i]));
  const some = checked.length < inputs.length ? `the first ${counted(MOST.checked, 'line')}: ` : '';
  Object.assign(state, { inputs, bad });
  $('source').textContent = source;
  $('rows').hidden = inputs.length < 2;
  $('summary').textContent = some + (bad.length > 0 ? `${said(bad.length)} rejected` : 'none is rejected');
  $('next-bad').disabled = bad.length === 0;
  $('count').textContent = said(inputs.length);
  $('row').max = inputs.length;
  show(0);
}

/** Takes the inputs in a text; of CSV those in the column whose first cells have most geometries. */
function takeText(text, source, field = text) {
  if ($('text').value !== field) $('text').value = field;
  $('example').value = text;
  if ($('example').selectedIndex < 0) $('example').value = '';
  state.columns = columnsOf(text);
  $('columns').hidden = state.columns.length === 0;
  if (state.columns.length === 0) return take(inputsOf(text), source);
  const counts = state.columns.map(({ cells }) => cells.slice(0, 20).filter(isGeometry).length);
  $('column').replaceChildren(...state.columns.map(({ name }, i) => new Option(name, i)));
  $('column').value = counts.indexOf(Math.max(...counts));
  return takeColumn(source);
}

const takeColumn = (source) => take(state.columns[$('column').value].cells, source);

/** Takes a long text that is pasted, which would be slow in the field. */
function takePasted(event) {
  const text = event.clipboardData.getData('text');
  if (text.length <= MOST.typed) return;
  event.preventDefault();
  takeText(text, `pasted: ${counted(text.length, 'character')}`, '');
}

async function takeFile(file) {
  takeText('', file.name);
  try {
    const bytes = new Uint8Array(await file.arrayBuffer());
    const [text, source] = [textOf(bytes), `${file.name}, ${counted(bytes.length, 'byte')}`];
    if (text === null) take([bytes], source);
    else takeText(text, source, '');
  } catch (error) {
    fail(error);
  }
}

/** Takes the bytes that a link carries behind its mark, which no server gets. What is no escape stays as it is. */
function takeLink() {
  const hex = /^#hex=(.*)/.exec(location.hash)?.[1];
  if (hex === undefined) return false;
  takeText(hex.replace(/%[0-9a-f]{2}/gi, (it) => String.fromCharCode(parseInt(it.slice(1), 16))), 'from the link');
  return true;
}

/** Takes a file that is dropped. */
function onDrag(event) {
  document.body.classList.toggle('is-over', event.type === 'dragover');
  if (!event.dataTransfer.types.includes('Files')) return;
  event.preventDefault();
  const [file] = event.dataTransfer.files;
  if (event.type === 'drop' && file) takeFile(file);
}

/** Shows one of the inputs. */
function show(index) {
  const { inputs } = state;
  const own = Math.max(0, Math.min(index, inputs.length - 1));
  Object.assign(state, { rows: MOST.rows, bytes: null });
  $('row').value = own + 1;
  $('found').hidden = $('link').hidden = true;
  $('compared').textContent = '';
  say('', false);
  if (inputs.length === 0) return;
  try {
    state.bytes = typeof inputs[own] === 'string' ? bytesOf(inputs[own]) : inputs[own];
    state.front = readFront(state.bytes);
    showBytes();
  } catch (error) {
    fail(error);
  }
}

function showBytes() {
  const { bytes, front } = state;
  const { parts, error } = readParts(bytes, front.size);
  const own = bytes.subarray(front.size);
  state.parts = parts;
  $('found').hidden = false;
  $('link').hidden = bytes.length > MOST.link;
  if (!$('link').hidden) $('link').href = `#hex=${hexOf(bytes)}`;
  $('forms').hidden = error !== null;
  if (error) showError(own, error);
  else showGeometry(own, check(own));
  showDrawing(own, error);
  showParts();
  showRows();
}

function showGeometry(own, { kind, dimension, srid, byteOrder, size, parts, coordinates }) {
  const [order, length] = [`${byteOrder} endian`, counted(size, 'byte')];
  say(`${kind}, ${dimension}${srid === null ? '' : `, SRID ${srid}`}, ${order}, ${length}.`, false);
  const facts = [['Kind', kind], ['Dimension', dimension], ['SRID', srid ?? 'none'], ['Byte order', order],
    ['Size', length], ['Parts', said(parts)], ['Coordinates', said(coordinates)]];
  if (own.length > size) facts.push(['Behind it', counted(own.length - size, 'more byte')]);
  for (const [axis, { min, max, count }] of Object.entries(bounds(own))) {
    if (count > 0) facts.push([`Least ${axis}`, spelled(min)], [`Greatest ${axis}`, spelled(max)]);
    else if (dimension.includes(axis)) facts.push([axis, 'no number']);
  }
  showFacts(facts);
  showForms(own, size > MOST.hex * 16);
}

function showError(own, { message, reason, part, offset, needed, has }) {
  const begin = said(offset + state.front.size);
  const ends = needed ? `; it needs ${counted(needed, 'byte')} from there on, and has ${said(has)}` : '';
  say(`Rejected: ${message.replace(/, at byte .*/, '')}, in the part at byte ${begin}${ends}.`, true);
  showFacts([['Reason', reason], ['Part', said(part)], ['Begins at byte', begin],
    ...needed ? [['It needs', counted(needed, 'byte')], ['It has', counted(has, 'byte')]] : [],
    ['Input', counted(own.length, 'byte')]]);
}

function showFacts(facts) {
  const { header, size } = state.front;
  if (header) facts.push(['GeoPackage', `${counted(size, 'byte')} of header, SRID ${header.srsId}`]);
  $('facts').replaceChildren(...facts.flatMap(([name, value]) => [make('dt', '', name), make('dd', '', value)]));
}

function showDrawing(own, error) {
  const { picture, caption } = draw(own, state.parts, Math.max(280, $('drawing').clientWidth));
  $('drawing').replaceChildren(picture);
  $('drawn').textContent = `${caption}${error ? ', before the fault' : ''}.`;
}

/** Lists the first parts, and the rejected one, of which one may be chosen. */
function showParts() {
  const shown = state.parts.filter((it, i) => i < MOST.parts - 1 || it.error);
  const more = state.parts.length - shown.length;
  $('parts').replaceChildren(...shown.map(choiceOf), more > 0 ? `and ${counted(more, 'more part')}` : '');
}

function choiceOf(part) {
  const radio = Object.assign(make('input'), { type: 'radio', name: 'part', value: part.index });
  const size = part.error || part.kind === 'Point' ? '' : counted(part.count, nounOf(part.kind));
  const choice = make('label', part.error ? 'bad' : '', radio, ` ${nameOf(part)} `, make('small', '', size));
  choice.style.paddingLeft = `${Math.min(part.depth, 12)}rem`;
  return choice;
}

/** Marks a part where it is shown, and goes to its bytes. */
function choose(index, isToScroll) {
  const shown = document.querySelectorAll('[data-part]');
  for (const it of shown) it.classList.toggle('is-chosen', it.dataset.part === index);
  for (const it of $('parts').querySelectorAll('input')) it.checked = it.value === index;
  if (isToScroll) $('bytes').querySelector('.is-chosen')?.scrollIntoView({ block: 'nearest' });
}

function lineOf({ at: begin, spans, text, isBad, isGap }) {
  const [className, hex] = [isBad ? 'bad' : '', make('td', isBad ? 'bad' : '')];
  let at = begin;
  for (const { length, name } of spans) {
    const digits = hexOf(state.bytes.subarray(at, at + Math.min(length, 32))).replace(/..(?!$)/g, '$& ');
    const span = make('span', `span ${name}`, digits + (length > 32 ? ' ..' : ''));
    Object.assign(span.dataset, { at, length });
    if (length > 0) hex.append(span, ' ');
    at += length;
  }
  return make('tr', isGap ? 'gap' : '', make('td', '', isGap ? '' : said(begin)), hex, make('td', className, text));
}

const bodyOf = (rows) => make('tbody', '', ...rows.map(lineOf));
const moreParts = (count) => bodyOf(count > 0 ? [gap(count, 'more part')] : []);

/** The rows of a part, below its name if there are others. */
function partOf(part, rows) {
  const body = bodyOf(rows);
  body.dataset.part = part.index;
  if (state.parts.length > 1) {
    const name = make('th', '', part.inside && part.kind !== 'Ring' ? `member ${part.number}: ` : '', nameOf(part));
    name.colSpan = 3;
    body.prepend(make('tr', '', name));
  }
  return body;
}

function showRows() {
  const { bytes, front, parts } = state;
  const bodies = [bodyOf(front.rows)];
  let [count, next] = [0, 0];
  for (const part of parts) {
    if (count > state.rows && !part.error) continue;
    const rows = rowsOf(bytes, front.size, part, Math.max(6, state.rows / 50));
    bodies.push(moreParts(part.index - next), partOf(part, rows));
    count += rows.length + 1;
    next = part.index + 1;
  }
  bodies.push(moreParts(parts.length - next), bodyOf(endOf(bytes, front.size, parts)));
  $('bytes').replaceChildren($('bytes').tHead, ...bodies);
  $('more').hidden = $('bytes').querySelector('.gap') === null;
  compare();
}

/** Says how the other input compares, and marks the fields whose bytes differ. */
function compare() {
  if (!state.bytes) return;
  const text = $('other').value.trim();
  let other = state.bytes;
  try {
    if (text !== '') other = bytesOf(text);
    $('compared').textContent = text === '' ? '' : compared(state.bytes, other);
  } catch (error) {
    $('compared').textContent = problemOf(error);
  }
  for (const it of $('bytes').querySelectorAll('.span')) {
    const [at, length] = [Number(it.dataset.at), Number(it.dataset.length)];
    it.classList.toggle('differs', differing(state.bytes, other, at, at + length).count > 0);
  }
}

function showForms(own, isLong) {
  const hexIn = (options) => () => hexOf(write(own, options));
  const forms = { 'Canonical key': hexIn({}), 'Big endian': hexIn({ byteOrder: 'big' }), EWKB: hexIn({ form: 'ewkb' }),
    'EWKB, big endian': hexIn({ form: 'ewkb', byteOrder: 'big' }), GeoJSON: () => JSON.stringify(toGeoJSON(own)) };
  $('encodings').replaceChildren(...Object.entries(forms).map(([name, textOf]) => formOf(name, isLong, textOf)));
}

/** A form of the geometry, which is made when it is copied if it is long. */
function formOf(name, isLong, textOf) {
  const text = isLong ? 'too long to show' : textOf();
  const code = make('code', '', text.length > MOST.hex ? `${text.slice(0, MOST.hex)} ..` : text);
  const button = Object.assign(make('button', '', 'Copy'), { ariaLabel: `Copy: ${name}` });
  button.onclick = async () => {
    const isCopied = await navigator.clipboard?.writeText(textOf()).then(() => true, () => false);
    button.textContent = isCopied ? 'Copied' : 'Not allowed';
  };
  return make('div', 'form', make('span', '', name), code, button);
}

$('text').oninput = $('example').onchange = ({ target }) => takeText(target.value);
$('text').onpaste = takePasted;
$('file').onchange = ({ target }) => target.files[0] && takeFile(target.files[0]);
$('column').onchange = () => takeColumn($('source').textContent);
$('other').oninput = compare;
$('row').onchange = ({ target }) => show(Math.floor(target.value) - 1);
$('next-bad').onclick = () => show(state.bad.find((i) => i >= $('row').value) ?? state.bad[0]);
$('more').onclick = () => {
  state.rows *= 4;
  showRows();
};
$('parts').onchange = ({ target }) => choose(target.value, true);
$('bytes').onclick = $('drawing').onclick = ({ currentTarget, target }) => {
  const index = target.closest('[data-part]')?.dataset.part;
  if (index) choose(index, currentTarget.id === 'drawing');
};
// An input that fails elsewhere isn't passed over in silence.
window.onerror = (text, file, line, column, error) => fail(error);
window.onunhandledrejection = ({ reason }) => fail(reason);
document.ondragover = document.ondragleave = document.ondrop = onDrag;
// The page's own link is to what it shows, maybe one of many inputs.
window.onhashchange = () => location.hash !== $('link').hash && takeLink();
if (!takeLink()) takeText($('example').value);
