// The script's console: lines in, each reply beside its line, and stories that play themselves.

import { count_in_words } from './report.js';
import { asked_of } from './asked.js';
import { make, make_button } from './marks.js';
import { with_numbers } from './names.js';
import { why_bad, why_refused } from './forms.js';
import { checked, explained } from './meant.js';
import { question_after } from './why.js';
import { HANDS_OVER, move_in } from './replay.js';

const PAUSE = 650;
const NOTED = 4;
// Milliseconds for which lines run before the browser may draw and be stopped, and how many lines with their replies the transcript shows.
const SLICE = 200, MOST_ROWS = 2000;
const in_thousands = count => count.toLocaleString('en');

// The lines that were prepared, the reader's, and all by which firmware handed its board over.
const nothing_run = () => ({ prepared: [], said: [], handed: '', dropped: 0 });

export class Console {
  // `parts` are its elements, and `box` the one in which lines are typed; `machine` gives what answers lines, or null; `whose` tells
  // whose lines they are; `moved` is told of each move that was done, `heard` of each reply, `begins` of each line before it runs, with
  // whether problems are noted, and `ran` of each line and its
  // reply; `question` is what one asks of a reply.
  constructor(parts, box, { machine, whose, moved, heard, begins, ran, question }) {
    Object.assign(this, { parts, box, machine, whose, moved, heard, begins, ran, question, marks: new Map(), before: [], back: 0, playing: 0, scrolls: 0 });
    Object.assign(this, nothing_run());
    parts.entry.addEventListener('submit', event => { event.preventDefault(); this.enter(); });
    parts.line.addEventListener('keydown', event => this.recall(event));
    parts.stop.addEventListener('click', () => this.end_playing());
  }

  // Begins anew, with a line to begin with.
  clear(marks, first) {
    this.end_playing();
    cancelAnimationFrame(this.scrolls);
    this.marks = marks;
    Object.assign(this, nothing_run());
    this.parts.line.placeholder = first;
    this.box.clear();
    this.parts.transcript.replaceChildren();
  }

  put(name, text) {
    const one = make('div', name, text);
    this.parts.transcript.append(one);
    if (name === 'row' || name === 'remark') this.drop_rows();
    if (name !== 'before') this.show(() => this.parts.transcript.lastElementChild);
    return one;
  }

  // Of a long script the transcript shows the last lines.
  drop_rows() {
    if (this.said.length - this.dropped <= MOST_ROWS) return;
    const { transcript } = this.parts;
    if (this.dropped === 0) transcript.prepend(make('div', 'before dropped'));
    const told = transcript.firstChild;
    while (!told.nextSibling.matches('.row, .remark')) told.nextSibling.remove();
    told.nextSibling.remove();
    this.dropped += 1;
    told.textContent = `${in_thousands(this.dropped)} lines before these aren't shown`;
  }

  // Shows a row, once for all that is put and drawn at once: in the transcript, or in a lesson in the column that scrolls, above the line box.
  show(find) {
    cancelAnimationFrame(this.scrolls);
    this.scrolls = requestAnimationFrame(() => {
      const { transcript, work, dock } = this.parts, row = find();
      if (!row) return;
      transcript.scrollTop = row.offsetTop + row.offsetHeight - transcript.clientHeight;
      const { top, bottom } = row.getBoundingClientRect(), beyond = bottom - dock.getBoundingClientRect().top, above = top - work.getBoundingClientRect().top;
      if (beyond > 0) work.scrollTop += beyond;
      else if (above < 0) work.scrollTop += above;
    });
  }

  // The lines that the reader ran, as a script, and with those that were prepared.
  script() { return this.said.join('\n'); }

  all_lines() { return [...this.prepared, ...this.said].join('\n'); }

  // Shows the lines behind the first ones as not run yet, and leads to the last that ran.
  mark(count) {
    const rows = [...this.parts.transcript.querySelectorAll('.row, .remark')], at = count - this.prepared.length - this.dropped;
    rows.forEach((row, nth) => { row.classList.toggle('later', nth >= at); row.toggleAttribute('aria-current', nth === at - 1 && at < rows.length); });
    this.show(() => rows[at - 1] ?? this.parts.transcript.firstElementChild);
  }

  run(line) {
    if (this.machine() === null) { this.put('refused', 'The board is refused, so there is nothing to run.'); return; }
    this.begins(line, true);
    this.said.push(line);
    if (line.trimStart().startsWith('#')) { this.put('remark', line.trimStart().slice(1).trim()); this.ran(line, ''); return; }
    const row = this.put('row', make('span', 'said', line));
    this.ran(line, this.tell(line, this.machine(), row));
  }

  // The reply of a line, beside it, and below it why it is refused, or what is wrong with its numbers.
  tell(line, machine, row) {
    const reply = asked_of(machine, line);
    if (reply === '') return reply;
    const who = reply.slice(0, reply.indexOf(':')), one = this.reply_in(row, line, reply);
    one.className = who === 'host' ? 'reply host' : 'reply';
    row.append(' ', one);
    if (this.marks.has(who)) one.style.setProperty('--hue', this.marks.get(who).hue);
    one.classList.toggle('refused', reply.includes(': refused '));
    const whose = this.whose(), { as, guests, functions } = whose, numbers = / refused (?!30[12] )/.test(reply) ? null : checked(line, guests, as), why = numbers ?? why_refused(line, reply, whose);
    if (why !== null) {
      const bad = / refused 40[123] /.test(reply) ? why_bad(line, whose) : null;
      this.put('why', bad === null ? why : explained(bad, functions));
      this.mark_word(row.firstChild, line, bad?.word);
    }
    this.follow_line(line, reply);
    this.heard(line, reply);
    return reply;
  }

  // The word of a line for which it is refused.
  mark_word(said, line, word) {
    if (word) said.replaceChildren(line.slice(0, word.at), make('mark', '', word.word), line.slice(word.at + word.word.length));
  }

  // A reply of all ones asks why, by a click or Enter, and takes the answer back by another.
  reply_in(row, line, reply) {
    const asked = question_after(line, reply, this.whose());
    if (asked === null) return make('span', '', reply);
    const button = Object.assign(make_button(reply, () => this.question.turn(asked, row, () => button)), { title: asked.line });
    button.setAttribute('aria-expanded', false);
    return button;
  }

  // Guests' board answers no question of firmware's.
  ask_no_more() { for (const one of this.parts.transcript.querySelectorAll('button.reply.host')) one.disabled = true; }

  // Notes what a line did that others ask for: a move, and that firmware handed its board over.
  follow_line(line, reply) {
    if (reply === 'host: ok' && HANDS_OVER.test(line)) this.handed = this.all_lines();
    const move = move_in(line, reply);
    if (move !== null) this.moved(...move);
  }

  // Runs the lines that stand before a task, which are shown folded or only counted, and are none of the reader's.
  prepare(script, shows) {
    const machine = this.machine(), lines = script.split('\n').filter(line => line.trim() !== '');
    if (machine === null || lines.length === 0) return;
    const told = `${count_in_words(lines.filter(line => !line.startsWith('#')).length, 'line')} ran before`;
    this.parts.transcript.append(shows ? make('details', 'before', make('summary', '', told), make('pre', '', lines.join('\n'))) : make('div', 'before', told));
    for (const line of lines) {
      this.prepared.push(line);
      this.begins(line, false);
      this.follow_line(line, asked_of(machine, line));
    }
  }

  enter() {
    const line = this.parts.line.value;
    if (line.trim() === '') return;
    this.before.push(line);
    this.back = 0;
    this.box.clear();
    this.give(line);
  }

  // Runs a line of the reader's, which ends a story.
  give(line) {
    this.end_playing();
    this.run(line);
  }

  // Tells of problems that came and went.
  note(came, gone) {
    for (const [name, sign, texts] of [['came', '+', came], ['gone', '−', gone]]) {
      for (const text of texts.slice(0, NOTED)) this.put(name, `${sign} ${with_numbers(text, this.whose().functions)}`);
      if (texts.length > NOTED) this.put(name, `${sign} ${texts.length - NOTED} more`);
    }
  }

  // The arrow keys bring back earlier lines.
  recall(event) {
    const step = { ArrowUp: 1, ArrowDown: -1 }[event.key];
    if (step === undefined) return;
    event.preventDefault();
    this.back = Math.min(Math.max(this.back + step, 0), this.before.length);
    this.box.clear();
    this.parts.line.value = this.back === 0 ? '' : this.before[this.before.length - this.back];
  }

  // Plays the lines of a script, one after the other, or at once; another story or a typed line ends it. While a long one runs it tells how far it is.
  async play(script, at_once) {
    const mine = ++this.playing, lines = script.split('\n').filter(line => line.trim() !== '');
    let began = performance.now();
    for (const [nth, line] of lines.entries()) {
      if (mine !== this.playing) break;
      this.run(line);
      if (at_once && performance.now() - began < SLICE) continue;
      if (at_once) this.tell_running(nth + 1, lines.length);
      await new Promise(done => setTimeout(done, at_once ? 0 : PAUSE));
      began = performance.now();
    }
    if (mine === this.playing) this.end_playing();
  }

  end_playing() {
    this.playing += 1;
    this.parts.running.hidden = true;
  }

  tell_running(count, all) {
    this.parts.running.hidden = false;
    this.parts.running_told.textContent = `${in_thousands(count)} of ${in_thousands(all)} lines ran`;
  }
}
