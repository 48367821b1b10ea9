// The reader's last question about why something responds to an access or nothing does, shown where it was asked. It is asked again after each
// line, since registers may have changed, until the reader closes it or asks another one.

import { make, make_button, put_text } from './marks.js';
import { Findings } from './findings_view.js';
import { with_numbers } from './names.js';
import { read_why, read_why_of_guest } from './why.js';

const LINES_SHOWN = 8;
const UNASKED = { asked: null, place: null, back: () => null, reply: null, lines: [], causes: [] };

export class Question {
  // `heard` is told each reply; `driven` gives what answers firmware's questions, or null where none can be asked, and `held` what answers
  // those of guests; `path_in` gives the function in a guest's slot, and `functions` all of them; `changed` lets the question look, and draws what is marked;
  // `reveal` brings an element into view.
  constructor(heard, { driven, held, path_in, light, choose, changed, functions, reveal }) {
    Object.assign(this, { heard, driven, held, path_in, changed, functions, reveal, ...UNASKED });
    const line = make('code'), list = make('ul');
    const head = make('div', 'line', make('span', '', 'now: ', line), make_button('×', () => this.close(), 'fold', 'Close the question'));
    this.about = make('p', 'about');
    this.box = make('div', 'question', head, this.about, list);
    for (const [name, value] of [['role', 'group'], ['aria-label', 'Why'], ['aria-live', 'off']]) this.box.setAttribute(name, value);
    this.box.addEventListener('keydown', event => { if (event.key === 'Escape') this.close(); });
    this.findings = new Findings({ total: line, list, few: LINES_SHOWN }, light, choose, functions);
  }

  can_ask() { return this.driven() !== null; }

  // Asks at a place: an element that takes the reply, or the space of a bar, which takes it as it is drawn. `back` finds what asked.
  ask(asked, place, back) {
    this.forget();
    Object.assign(this, { asked, place, back });
    this.findings.whole = false;
    if (place instanceof Element) place.append(this.box);
    this.changed();
    this.unfold(true);
    this.reveal(this.box);
  }

  // What asked this question last closes it. Two functions may be looked for at one number.
  turn(asked, place, back) {
    if (this.asked?.line === asked.line && this.asked.path === asked.path && this.place === place) this.close();
    else this.ask(asked, place, back);
  }

  // The reply as registers are now; says whether it is another one.
  look() {
    if (this.asked === null) return false;
    this.tell_about();
    const { line, at, call } = this.asked, answers = call === null ? this.driven() : this.held(), reply = call === null ? answers.long_reply(line) : answers.why(call);
    if (reply === this.reply) return false;
    const lines = call === null ? read_why(answers.board_why_json(at), reply) : read_why_of_guest(answers.why_json(call), reply, slot => this.path_in(call.guest, slot));
    Object.assign(this, { reply, lines, causes: lines.filter(one => one.is_cause) });
    this.findings.draw(this.lines, this.asked.line);
    this.heard.textContent = [...(this.about.hidden ? [] : [this.about.textContent]), ...this.lines.map(one => with_numbers(one.text, this.functions()))].join('; ');
    return true;
  }

  // What the question is about, as registers are now, where its line doesn't say it.
  tell_about() {
    const told = with_numbers(this.asked.about?.() ?? '', this.functions());
    put_text(this.about, told);
    this.about.hidden = told === '';
  }

  // Functions have moved, so the same reply may name others.
  doubt() { this.reply = null; }

  // What is marked: the address, with its space where it has one, and the causes.
  marked() { return { space: this.asked?.space ?? null, address: this.asked?.address ?? null, causes: this.causes }; }

  // The box, where the bar of this space takes it.
  below(space) { return this.place === space ? [this.box] : []; }

  unfold(is_open) {
    const by = this.back();
    if (by?.matches('[aria-expanded]')) by.setAttribute('aria-expanded', is_open);
  }

  forget() {
    this.unfold(false);
    Object.assign(this, UNASKED);
    this.box.remove();
    this.heard.textContent = '';
  }

  // Guests' board answers no question of firmware's.
  forget_firmware() { if (this.asked?.call === null) this.forget(); }

  close() {
    const { back } = this;
    this.forget();
    this.changed();
    back()?.focus({ preventScroll: true });
  }
}
