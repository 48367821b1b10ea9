// The function and the register that a line names, as far as the line is typed.

import { VERBS, number_of, words_in } from './forms.js';

// The function at a number that the host or firmware gives, or in a guest's slot. Of firmware's board, ask among those that cycles find.
export function function_named(who, where, functions, owners) {
  if (who === 'host') return functions.find(one => one.place === where.toLowerCase());
  return functions.find(one => owners.get(one.path)?.guest === who && BigInt(owners.get(one.path).slot) === number_of(where));
}

// { path, offset, width, value } of a read or write of configuration space: the offset is null if it isn't typed yet, and so is the value. Null
// if the line names no function.
export function register_in(line, functions, owners) {
  const [who, verb, where, ...rest] = words_in(line).map(one => one.word);
  if (VERBS[verb]?.space !== 'cfg' || where === undefined) return null;
  const one = function_named(who, where, functions.filter(each => !each.lost), owners), [offset, width, value] = rest.map(number_of);
  return one === undefined ? null : { path: one.path, offset: offset == null || offset > 255n ? null : Number(offset),
    width: width != null && width >= 1n && width <= 4n ? Number(width) : 1, value: value ?? null };
}
