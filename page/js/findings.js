// What is wrong and what is lacking in a board's registers, with the line that tells it.

import { number_at } from './report.js';

// The first word of a line.
const WORD_BEFORE = 'audit: '.length;

// A function, with a register or null.
export const party = ({ path, bar = null }) => ({ path, register: bar === null ? null : `bar${bar}` });

// The functions that a problem or a lack names, each with a register or null; the address at which it is seen, with its space, or null; and the
// number at which a function isn't found, or null.
function finding_of({ region, agents = [], bridge, path, number, address = null, space = region?.space ?? null }, text) {
  const others = [bridge, path].filter(one => one !== undefined).map(one => ({ path: one }));
  return { text, of: [...(region ? [region] : []), ...agents, ...others].map(party), address: address && BigInt(address), space,
    number: number ? number_at(number) : null };
}

// All of them, of which `text` has the lines in the same order, problems first.
export function findings_in({ problems, lacks }, text) {
  const lines = text.split('\n').map(line => line.slice(WORD_BEFORE)), all = [...problems, ...lacks].map((one, nth) => finding_of(one, lines[nth]));
  return { problems: all.slice(0, problems.length), lacks: all.slice(problems.length) };
}

// Texts by the path that each comes with.
export const grouped = pairs => new Map([...Map.groupBy(pairs, ([path]) => path)].map(([path, those]) => [path, those.map(([, text]) => text)]));

// What was told of findings that are drawn again.
const TEXTS = new WeakMap();

// Of problems, lacks or causes, the texts that name each function: each text once, also where it names two regions of one function.
export function texts_by_path(findings) {
  if (TEXTS.has(findings)) return TEXTS.get(findings);
  const texts = grouped(findings.flatMap(({ text, of }) => [...new Set(of.map(one => one.path))].map(path => [path, text])));
  TEXTS.set(findings, texts);
  return texts;
}
