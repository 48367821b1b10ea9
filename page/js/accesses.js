// What a line of the reader's reads or writes, byte by byte, so that a condition is met in any width that covers its place, and by no line elsewhere.

import { VERBS, number_of, words_in } from './forms.js';

// A function's path in a condition, which stands for the number that leads to the function now.
const PATH = /^\d+\.\d(\/\d+\.\d)*$/;

// A line with a function's number for its path; null where no number leads there.
export function with_place(line, functions) {
  const [, , where] = words_in(line);
  if (where === undefined || !PATH.test(where.word)) return line;
  const one = functions.find(each => each.path === where.word);
  return one === undefined || one.lost ? null : line.slice(0, where.at) + one.place + line.slice(where.at + where.word.length);
}

// The digits of bytes, the lowest byte first.
const bytes_in = digits => (digits.match(/../g) ?? []).reverse();

// What a line accesses: who, by which verb and where, and the bytes by their addresses: { name, first, width, is_write, bytes }, where `bytes` are
// those that it reads by this reply, or writes where the reply is ok; null where it accesses nothing. A `.` is any digit.
export function access_in(line, reply) {
  const [who, verb, ...rest] = words_in(line).map(one => one.word), { space, read_back } = VERBS[verb] ?? {};
  if (space === undefined) return null;
  const where = space === 'cfg' ? rest.shift() ?? '' : '', [first, width, value] = rest.map(number_of), is_write = read_back !== undefined;
  if (first == null || width == null || is_write && value == null) return null;
  const digits = is_write ? value.toString(16).padStart(2 * Number(width), '0') : /: 0x([0-9a-f.]+)$/.exec(reply)?.[1] ?? '';
  return { name: [who, verb, number_of(where) ?? where.toLowerCase()].join(' '), first, is_write, bytes: bytes_in(digits) };
}

const is_byte = (wanted, found) => [...wanted].every((digit, nth) => digit === '.' || digit === found[nth]);

// Which bytes of the wanted access a line has, by their numbers: none where one of those that it has is another one.
export function bytes_met(wanted, other) {
  if (other === null || other.name !== wanted.name) return [];
  const found = nth => other.bytes[Number(wanted.first - other.first) + nth];
  const covered = wanted.bytes.flatMap((byte, nth) => (byte !== '..' && found(nth) !== undefined ? [nth] : []));
  return covered.every(nth => is_byte(wanted.bytes[nth], found(nth))) ? covered : [];
}

// How many bytes of an access count: those of which a digit is wanted.
export const bytes_wanted = ({ bytes }) => bytes.filter(byte => byte !== '..').length;
