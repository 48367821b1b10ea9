// The lines that one may write, with what the page needs to know of each; and why a line is refused, as the library explains it.

// The number that a word is, below 2^64, or null.
export function number_of(word) {
  if (!/^(\d+|0x[0-9a-f]+)$/i.test(word)) return null;
  const value = BigInt(word.replace(/^0X/, '0x'));
  return value < 1n << 64n ? value : null;
}

// A word of a line: its name, and whether what is typed in its place may become right by what follows.
const counted = name => ({ name, is_number: true, begun: word => /^0x$/i.test(word) });
const among = (name, words) => ({ name, words, begun: word => words.some(one => one.startsWith(word)) });

const PARTS = ['cfg', 'bar0', 'bar1', 'bar2', 'bar3', 'bar4', 'bar5'];
const FUNCTION = { name: 'the function', begun: word => '00:00.0'.startsWith(word.replace(/[0-9a-f]/gi, '0')) };
const SLOT = counted('the slot'), OFFSET = counted('the offset'), PORT = counted('the port'), ADDRESS = counted('the address'), WIDTH = counted('the width'), VALUE = counted('the value');

// All verbs, in the order in which completion offers them: what each does; the space that it accesses, if any; if it writes, the verb that reads the
// same place back; and the words after it in lines of a guest, of the guests' host, and of firmware. A function gives words that depend on the
// guests or on the third word of the line.
export const VERBS = {
  cr: { does: 'reads configuration bytes', space: 'cfg', guest: [SLOT, OFFSET, WIDTH], host: [FUNCTION, OFFSET, WIDTH], firmware: [FUNCTION, OFFSET, WIDTH] },
  cw: { does: 'writes configuration bytes', space: 'cfg', read_back: 'cr', guest: [SLOT, OFFSET, WIDTH, VALUE], firmware: [FUNCTION, OFFSET, WIDTH, VALUE] },
  ir: { does: 'reads ports', space: 'io', guest: [PORT, WIDTH], host: [PORT, WIDTH], firmware: [PORT, WIDTH] },
  iw: { does: 'writes ports', space: 'io', read_back: 'ir', guest: [PORT, WIDTH, VALUE], firmware: [PORT, WIDTH, VALUE] },
  mr: { does: 'reads memory', space: 'mem', guest: [ADDRESS, WIDTH], host: [ADDRESS, WIDTH], firmware: [ADDRESS, WIDTH] },
  mw: { does: 'writes memory', space: 'mem', read_back: 'mr', guest: [ADDRESS, WIDTH, VALUE], firmware: [ADDRESS, WIDTH, VALUE] },
  raise: { does: 'its device sets status bits', guest: [SLOT, among('the part', PARTS), OFFSET, counted('the mask')] },
  move: { does: 'reassigns a function', host: ({ guests }) => [among('the guest that has the function', guests), SLOT, among('the guest that gets it', guests), SLOT] },
  audit: { does: 'lists what is wrong', firmware: [] },
  ready: { does: 'lists what is wrong and what is left to do', firmware: [] },
  guests: { does: 'hands the board over to its guests', firmware: [] },
  why: { does: 'says what responds, or why nothing does',
    firmware: ({ third }) => [among('the space', ['mem', 'io', 'cfg']), { mem: ADDRESS, io: PORT, cfg: FUNCTION }[third] ?? counted('the place')] },
};

// The verbs that `name` may use, each with the words after it; null if that is neither a guest nor the host. `third` is the third word of the line.
export function forms_of(name, guests, as, third) {
  const who = name !== 'host' ? 'guest' : as === 'firmware' ? 'firmware' : 'host';
  if (who === 'guest' && (as !== 'guests' || !guests.includes(name))) return null;
  const forms = Object.entries(VERBS).map(([verb, one]) => [verb, one[who]]).filter(([, form]) => form !== undefined);
  return Object.fromEntries(forms.map(([verb, form]) => [verb, typeof form === 'function' ? form({ guests, third }) : form]));
}

// A form as one writes it: `a mr ADDRESS WIDTH`.
export const shape_of = (words, form) => [...words, ...form.map(({ name }) => (name.split(' ').length === 2 ? name.split(' ')[1].toUpperCase() : 'GUEST'))].join(' ');

// The words of a line, with where each begins.
export const words_in = line => [...line.matchAll(/[^ \t\r]+/g)].map(found => ({ word: found[0], at: found.index }));

// The word of a line that is wrong, and whether it may become right by what is typed next.
function wrong_word(line, at, { as, guests }) {
  const words = words_in(line), [who, verb, third] = words.map(one => one.word), names = as === 'firmware' ? [] : guests;
  const forms = forms_of(who, names, as, third) ?? {}, firsts = [among('the name', [...names, 'host']), among('the command', Object.keys(forms))];
  const word = words[at] ?? null, kind = firsts[at] ?? forms[verb]?.[at - 2], is_last = at === words.length - 1 && !/\s$/.test(line);
  return { word, verb, name: kind?.name, width: words[at - 1]?.word, is_number: word !== null && Boolean(kind?.is_number) && number_of(word.word) === null,
    begun: word === null || (is_last && Boolean(kind?.begun(word.word))) };
}

// Why a line is refused by 401, 402 or 403: { why, word, begun }, where the word may be none, and `begun` tells that the line may
// become right by what is typed next; null where it is a line. `explain` is the library's call on what answers the line.
export function why_bad(line, whose) {
  const { why, at } = whose.explain(line);
  return why === '' ? null : { why, ...wrong_word(line, at, whose) };
}

// Whether a line is an access that only reads.
export function is_read(line) {
  const { space, read_back } = VERBS[words_in(line)[1]?.word] ?? {};
  return space !== undefined && read_back === undefined;
}

// Why a reply refuses a line, or nothing: of a line that has a lawful form, when docs/errors.md says that its number comes.
export function why_refused(line, reply, whose) {
  const refused = /^\S+: refused (\d+) /.exec(reply);
  return refused === null ? null : why_bad(line, whose)?.why ?? WORDS[refused[1]]?.replace(/^[^:]*: /, '') ?? null;
}
