// SPDX-License-Identifier: MIT OR Apache-2.0
// The inputs in a text or a file: hex, base64 or raw bytes.
import { bytesOf, check } from './out/package/wkb.js';
import { readFront } from './explain.js';

/** How many bytes are behind the geometry that a text begins with; NaN if it begins with none. */
function restOf(text) {
  try {
    const bytes = bytesOf(text);
    const { size } = readFront(bytes);
    return bytes.length - size - check(bytes.subarray(size)).size;
  } catch {
    return NaN;
  }
}

const isWhole = (text) => restOf(text) === 0;
/** Whether a text begins with a geometry. */
export const isGeometry = (text) => restOf(text) >= 0;

/** The inputs in a text: one in each line, unless they are lines of one geometry. */
export function inputsOf(text) {
  const lines = text.split('\n').filter((it) => it.trim() !== '');
  return lines.length > 1 && !isWhole(lines[0]) && isWhole(lines.join('')) ? [lines.join('')] : lines;
}

/** The columns of a text of CSV, by name and cells; none if it is another text. A cell has no line break. */
export function columnsOf(text) {
  const lines = text.split('\n').filter((it) => it.trim() !== '');
  const mark = /[,;\t]/.exec(lines[0] ?? '')?.[0];
  if (!mark || lines.length < 2) return [];
  const cell = new RegExp(`(?:"([^"]*(?:""[^"]*)*)"|([^${mark}]*))(?:${mark}|\r?$)`, 'gy');
  const cellsOf = (line) => Array.from(line.matchAll(cell), (it) => it[1]?.replaceAll('""', '"') ?? it[2]).slice(0, -1);
  const rows = lines.map(cellsOf);
  const hasHead = !rows[0].some(isGeometry);
  const names = hasHead ? rows.shift().map((it) => it.trim()) : rows[0].map((_, i) => `column ${i + 1}`);
  return names.map((name, i) => ({ name, cells: rows.map((it) => it[i] ?? '') }));
}

/** The text of a file, in UTF-8 or with the mark of UTF-16; null if it has other bytes. */
export function textOf(bytes) {
  const mark = { 0xfffe: 'utf-16le', 0xfeff: 'utf-16be', 0xefbb: 'utf-8' }[bytes[0] << 8 | bytes[1]];
  const isPrinted = (it) => it >= 32 && it < 127 || it >= 9 && it <= 13;
  const isText = mark || bytes.length > 0 && bytes.subarray(0, 64).every(isPrinted);
  return isText ? new TextDecoder(mark).decode(bytes) : null;
}
