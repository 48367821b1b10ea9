// The words that fit where one types in a line: guests, what they do, functions by path or number, registers by name.

import { hex, two_digits } from './report.js';
import { VERBS, forms_of, number_of, shape_of, words_in } from './forms.js';
import { function_named } from './register_in_line.js';
import { register_at, registers_of } from './register_names.js';

// An offer has what is put in, what is told beside it, and the names by which it is found.
const offer = (text, told, ...names) => ({ text, told, names: [text, ...names] });

// Registers are also found by any part of their names, and those of a bridge's windows as such.
const registers_in = kind => registers_of(kind).map(({ name, title, offset, width }) => ({
  ...offer(`${hex(offset)} ${width}`, `${name}: ${title}`, name, two_digits(offset)), parts: `${name} ${title}${/_(base|limit)/.test(name) ? ' window' : ''}`.toLowerCase() }));

// Where regions stand: on the board, or in a guest's own view.
const regions_in = (space, { places }, who) => places(who).filter(one => one.space === space).map(({ first, told, names }) => offer(hex(first), told, ...names));

// What may stand in the place of a word of a form.
function offers_for({ name, words: those = [] }, words, board) {
  const who = words[0].word, { space } = VERBS[words[1].word], spoken_of = () => function_named(who, words[2].word, board.functions, board.owners);
  if (name === 'the function') return board.functions.filter(one => !one.lost).map(one => offer(one.place, `${one.path} ${one.words}`, one.path));
  if (name === 'the slot') {
    return board.functions.filter(one => board.owners.get(one.path)?.guest === who)
      .map(one => offer(`${board.owners.get(one.path).slot}`, `${one.path} ${one.words}`, one.path));
  }
  if (name === 'the offset' && space === 'cfg') return registers_in(spoken_of()?.kind ?? 'endpoint');
  if (name === 'the width' && space === 'cfg') {
    const one = spoken_of(), register = one && register_at(one.kind, Number(number_of(words[3].word) ?? 256n));
    return register ? [offer(`${register.width}`, `bytes of ${register.title}`)] : [];
  }
  // A line with `why` names the space itself.
  if (name === 'the address' || name === 'the port') return regions_in(space ?? words[2].word, board, who);
  return those.map(one => offer(one, ''));
}

function offers_at(nth, words, board) {
  const names = board.as === 'firmware' ? [] : board.guests;
  if (nth === 0) return [...names.map(one => offer(one, 'guest')), offer('host', board.as === 'firmware' ? 'firmware' : 'the host')];
  const forms = forms_of(words[0].word, names, board.as, words[2]?.word);
  if (forms === null) return [];
  if (nth === 1) return Object.keys(forms).map(verb => offer(verb, `${VERBS[verb].does}: ${shape_of([words[0].word, verb], forms[verb])}`));
  const word = forms[words[1].word]?.[nth - 2];
  return word === undefined ? [] : offers_for(word, words, board);
}

// What may be put in at the end of a line: { from, offers }, where `from` is where the word begins that is being typed. `board` has
// `as`, `guests`, `functions`, `owners`, and `places`, which tells the regions that somebody can reach.
export function completions(line, board) {
  const words = words_in(line), typed = /[ \t\r]$/.test(line) || words.length === 0 ? null : words[words.length - 1];
  const before = typed ? words.slice(0, -1) : words, begun = (typed?.word ?? '').toLowerCase();
  if (before[0]?.word.startsWith('#') || begun.startsWith('#')) return { from: line.length, offers: [] };
  const is_begun = one => one.names.some(name => name.toLowerCase().startsWith(begun)), all = offers_at(before.length, before, board).filter(one => one.text.toLowerCase() !== begun);
  const has_part = one => /^[a-z]/.test(begun) && one.parts?.includes(begun) && !is_begun(one);
  return { from: typed?.at ?? line.length, offers: [...all.filter(is_begun), ...all.filter(has_part)] };
}
