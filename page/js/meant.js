// What the reader may have meant by a word that is wrong, and what a line that has its form will be refused for, told while it is typed.

import { hex } from './report.js';
import { VERBS, forms_of, number_of, words_in } from './forms.js';

const WIDTHS = [1n, 2n, 4n];
const PLACES = ['the offset', 'the port', 'the address'];
// A number without 0x that is none in decimal digits; a word of few letters is rather the beginning of a register's name.
const BARE_HEX = /^((?=.*\d)[0-9a-f]*[a-f][0-9a-f]*|[a-f]{4,})$/i;

// A number for one that is written as 20h is, a function's number for its path, or null.
export function meant_by({ word, name, is_number }, functions) {
  if (word == null) return null;
  if (is_number && /^[0-9a-f]+h$/i.test(word.word)) return `0x${word.word.slice(0, -1).toLowerCase()}`;
  if (is_number && BARE_HEX.test(word.word)) return `0x${word.word.toLowerCase()}`;
  return name === 'the function' ? functions.find(one => one.path === word.word && !one.lost)?.place ?? null : null;
}

// Why a line is bad, with what was meant if that is known. A value of 8 bytes is none, since no line has a width of 8.
export function explained(bad, functions) {
  const width = bad.name === 'the value' && number_of(bad.width ?? '');
  if (typeof width === 'bigint' && !WIDTHS.includes(width)) return of_width(width);
  const meant = meant_by(bad, functions), is_path = bad.name === 'the function' && functions.some(one => one.path === bad.word?.word);
  if (is_path && meant === null) return `the function, '${bad.word.word}', is a path, and no number leads to that function yet`;
  if (is_path) return `the function, '${bad.word.word}', is a path: did you mean its number, ${meant}?`;
  if (meant !== null) return `${bad.name}, '${bad.word.word}': did you mean ${meant}?`;
  return bad.is_number && bad.name === 'the offset' && VERBS[bad.verb].space === 'cfg' ? `${bad.why}; or type part of a register's name, such as command, and choose it from the list` : bad.why;
}

const of_width = width => `the width is 1, 2 or 4 bytes, not ${width}`;

// An offset in configuration space that is written in decimal digits, and the number that has these digits behind 0x; or null.
function slip_in(line) {
  const [, verb, , offset] = words_in(line).map(one => one.word);
  return VERBS[verb]?.space === 'cfg' && /^[1-9]\d$/.test(offset ?? '') ? { word: offset, meant: `0x${offset}` } : null;
}

// What an offset in decimal digits means, in case that it wasn't meant; or nothing.
export function told_of_slip(line) {
  const slip = slip_in(line);
  return slip === null ? '' : `${slip.word} is decimal, so the offset is ${hex(BigInt(slip.word))}: did you mean ${slip.meant}?`;
}

// The numbers of a line, by what they are in its form.
function numbers_in(line, guests, as) {
  const words = words_in(line).map(one => one.word), forms = forms_of(words[0], as === 'firmware' ? [] : guests, as, words[2]);
  const form = forms?.[words[1]];
  if (!form) return {};
  const found = form.map(({ name }, nth) => [name, number_of(words[nth + 2] ?? '')]).filter(([, value]) => value !== null);
  return { ...Object.fromEntries(found), place: found.find(([name]) => PLACES.includes(name)) };
}

// What is wrong with the numbers of a line that has its form so far, or null: its width, where it is, and a value that is too large.
export function checked(line, guests, as) {
  const { 'the width': width, 'the value': value, place } = numbers_in(line, guests, as);
  if (width === undefined) return null;
  if (!WIDTHS.includes(width)) return of_width(width);
  if (place !== undefined && place[1] % width !== 0n) {
    const slip = slip_in(line), meant = slip !== null && BigInt(slip.meant) % width === 0n ? `; ${slip.word} is decimal: did you mean ${slip.meant}?` : '';
    return `${place[0]}, ${hex(place[1])}, isn't a multiple of the width, ${width}${meant}`;
  }
  if (value !== undefined && value >> 8n * width !== 0n) return `the value, ${hex(value)}, is too large for ${width} ${width === 1n ? 'byte' : 'bytes'}: the line writes ${hex(BigInt.asUintN(8 * Number(width), value))}`;
  return null;
}
