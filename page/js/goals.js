// What a task wants, as conditions that the proved code judges, one a line, each with words behind ' # ' that are told in its place:
//   ready                nothing is wrong in the registers as they are, and nothing is left to do
//   audit: TEXT          a line of the audit of the registers as they are; `audit: ok` where nothing is wrong
//   LINE -> REPLY        a read is answered so now
//   you: LINE -> REPLY   lines of the reader's accessed all bytes of this place, in any width, with these values (accesses.js)
//   -> REPLY             a line of the reader's was answered so, whatever it was
// What the reader did counts from when the task began, while the conditions above held that are about the board.

import { access_in, bytes_met, bytes_wanted, with_place } from './accesses.js';
import { asked_of, keeping_latch } from './asked.js';
import { is_read, VERBS, why_bad, words_in } from './forms.js';
import { checked } from './meant.js';

const ARROW = /^(you:\s+)?(.*?)\s*->\s*(.+)$/;
const REPLY_OF_ANY = /^\S+: (0x([0-9a-f]{2}){1,4}|ok|refused \d+ .+)$/;

const IN_WORDS = {
  ready: () => 'The board is ready',
  audit: ({ text }) => `The audit says ${text.slice('audit: '.length)}`,
  read: ({ line, reply }) => `${line} returns ${reply}`,
  you: ({ line, reply }) => `Your lines return ${reply} for ${line}`,
  told: ({ reply }) => `One of your lines returns ${reply}`,
};

function condition_of(text) {
  if (text === 'ready') return { kind: 'ready', text };
  if (text.startsWith('audit: ')) return { kind: 'audit', text };
  const [, you, line, reply] = ARROW.exec(text) ?? [];
  if (reply === undefined) return { kind: null, text };
  if (you !== undefined) return { kind: 'you', text, line, reply };
  return line === '' ? { kind: 'told', text, reply } : { kind: 'read', text, line, reply };
}

// Whether a condition is about what the reader did.
const is_deed = ({ kind }) => kind === 'told' || kind === 'you';

// Why no line has this reply, or null.
function why_never(line, reply, { as, guests }, any) {
  const [who, verb, , , width] = words_in(line).map(one => one.word), wrong = checked(line, guests, as);
  if (reply.startsWith(`${who}: refused `)) return null;
  if (wrong !== null) return wrong;
  if (VERBS[verb].read_back !== undefined) return reply === `${who}: ok` ? null : `a write returns ${who}: ok`;
  const bytes = Number(VERBS[verb].space === 'cfg' ? width : words_in(line)[3].word), digits = new RegExp(`^${who}: 0x[0-9a-f${any}]{${2 * bytes}}$`);
  return digits.test(reply) ? null : `no read of ${bytes} bytes returns this: a reply is ${who}: 0x and ${2 * bytes} digits in small letters`;
}

// Why a condition is none, or null.
function why_none({ kind, line, reply }, whose) {
  if (kind === null) return 'write ready, audit: ok, you: LINE -> REPLY, LINE -> REPLY or -> REPLY';
  if (kind === 'told') return REPLY_OF_ANY.test(reply) ? null : 'no line returns this: a reply is host: or a guest, and 0x and 2, 4 or 8 digits in small letters, or ok';
  if (kind !== 'read' && kind !== 'you') return whose.as !== 'firmware' ? 'only firmware can run an audit' : null;
  const asks = kind === 'you' ? with_place(line, whose.functions.map(one => ({ ...one, lost: null }))) : line;
  const bad = asks === null ? { why: 'no function of the board has this path' } : why_bad(asks, whose);
  if (bad !== null) return bad.why;
  if (kind === 'read' && !is_read(line)) return 'this has to be a read, because it runs after each line';
  if (VERBS[words_in(line)[1].word].space === undefined) return 'this has to read or write a place';
  return why_never(asks, reply, whose, kind === 'you' ? '.' : '');
}

// The conditions of a goal.
function rows_of(text) {
  return text.split('\n').map(line => line.trim()).filter(line => line !== '' && !line.startsWith('#')).map(line => {
    const [condition, ...words] = line.split(/\s+#\s+/), one = condition_of(condition);
    return { ...one, words: words.join(' # ') || (one.kind === null ? line : IN_WORDS[one.kind](one)) };
  });
}

// What is wrong with a goal, a text for each condition that is none.
export function wrong_in_goal(text, whose) {
  const rows = rows_of(text), wrong = rows.flatMap(one => { const why = why_none(one, whose); return why === null ? [] : [`${one.text}: ${why}`]; });
  return rows.length === 0 ? ['a goal has at least one condition, each on a line of its own'] : wrong;
}

// A board that was given to its guests was in order then, and stays so; it is asked no more. Where firmware drives nothing there is no audit.
function lines_of_audit(held) {
  if (held.audit === undefined) return [];
  const told = held.audit();
  return told === null ? ['audit: ok'] : told.split('\n');
}

export class Goals {
  constructor(text, as) {
    const rows = rows_of(text);
    Object.assign(this, { rows, as, done: new Map(rows.map(one => [one, new Set()])), lacks: [], wants_ready: rows.some(one => one.kind === 'ready') });
  }

  // How many bytes of a condition the reader has to access; of one that any line meets, one.
  wanted(one) { return one.kind === 'told' ? 1 : bytes_wanted(access_in(one.line, one.reply) ?? { bytes: [] }); }

  // Which parts of a condition a line meets by its reply.
  met_by(one, line, reply, functions) {
    if (one.kind === 'told') return one.reply === reply ? [0] : [];
    const asks = with_place(one.line, functions), wanted = asks && access_in(asks, one.reply);
    return !wanted || (wanted.is_write && reply !== one.reply) ? [] : bytes_met(wanted, access_in(line, reply));
  }

  // A line of the reader's, and its reply. It counts where the conditions above hold, but for those that are about what the reader did.
  hear(line, reply, held, { lacks, functions }) {
    for (const [nth, one] of this.rows.entries()) {
      const met = is_deed(one) ? this.met_by(one, line, reply, functions).filter(part => !this.done.get(one).has(part)) : [];
      if (met.length === 0) continue;
      const above = this.rows.slice(0, nth).filter(each => !is_deed(each));
      if (this.judge(above, held, lacks).every(each => each.met)) for (const part of met) this.done.get(one).add(part);
    }
  }

  // Which conditions hold now. `held` answers lines, and `lacks` tells what is wrong and what is lacking.
  look(held, lacks) {
    this.lacks = this.wants_ready ? lacks() : [];
    return this.judge(this.rows, held, () => this.lacks);
  }

  judge(rows, held, lacks) {
    const audit = rows.some(one => one.kind === 'audit') ? lines_of_audit(held) : [];
    const is_done = one => this.done.get(one).size > 0 && this.done.get(one).size === this.wanted(one);
    const is_met = { ready: () => lacks().length === 0, audit: one => audit.includes(one.text), told: is_done, you: is_done,
      read: one => asked_of(held, one.line) === one.reply };
    const look = () => rows.map(one => ({ words: one.words + this.part_of(one), met: is_met[one.kind]?.(one) ?? false }));
    return this.as === 'firmware' ? keeping_latch(held, look) : look();
  }

  // How much of a condition the reader has accessed, where that is a part of it.
  part_of(one) {
    const done = is_deed(one) ? this.done.get(one).size : 0, wanted = done === 0 ? 0 : this.wanted(one);
    return done === wanted ? '' : ` (${done} of ${wanted} bytes so far)`;
  }
}
