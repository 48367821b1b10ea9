// The box in which a line is typed: while one types, it tells which word is wrong, and offers what fits there.

import { make } from './marks.js';
import { why_bad } from './forms.js';
import { checked, explained, meant_by, told_of_slip } from './meant.js';
import { completions } from './completion.js';

const OFFERS_SHOWN = 60;

export class ScriptBox {
  // `parts` are the elements `line`, `why` and `offers`; `board` gives what is known of the board, or null where none is there; `typed` is
  // called with each line as far as it is typed.
  constructor({ line, why, offers }, board, typed) {
    Object.assign(this, { line, why, list: offers, board, offers: [], from: 0, at: -1 });
    line.addEventListener('input', () => { this.look(); typed(line.value); });
    line.addEventListener('blur', () => this.shut());
    line.addEventListener('keydown', event => this.follow_key(event));
  }

  // After each change: what is wrong, and what may follow.
  look() {
    const board = this.board(), text = this.line.value, ends = this.line.selectionStart === text.length;
    if (board === null || text === '') { this.tell('', false); this.show([]); return; }
    const bad = why_bad(text, board), { from, offers } = ends ? this.offered(bad, text, board) : { from: 0, offers: [] };
    // a word by which something is offered in its place is a name, and not wrong
    const is_name = offers.length > 0 && bad?.word?.at === from, check = bad === null || bad.begun || is_name ? checked(text, board.guests, board.as) : null;
    if (check !== null) this.tell(check, true);
    else if (bad !== null && (bad.is_number || !is_name) && meant_by(bad, board.functions) !== null) this.tell(explained(bad, board.functions), true);
    else if (is_name) this.tell(bad.is_number ? `${bad.name}: choose what '${bad.word.word}' means from the list` : '', false);
    else this.tell(bad === null ? told_of_slip(text) : explained(bad, board.functions), bad !== null && !bad.begun);
    Object.assign(this, { from, at: -1 });
    this.show(offers.slice(0, OFFERS_SHOWN));
  }

  // What may follow, or the number that was meant by the word that is being typed: { from, offers }.
  offered(bad, text, board) {
    const meant = bad?.is_number ? meant_by(bad, board.functions) : null, is_last = meant && bad.word.at + bad.word.word.length === text.length;
    return is_last ? { from: bad.word.at, offers: [{ text: meant, told: 'did you mean this?' }] } : completions(text, board);
  }

  tell(words, is_wrong) {
    this.why.textContent = words;
    this.why.classList.toggle('wrong', is_wrong);
    this.line.setAttribute('aria-invalid', is_wrong);
  }

  show(offers) {
    this.offers = offers;
    this.list.replaceChildren(...offers.map((one, nth) => {
      const item = Object.assign(make('li', '', make('b', '', one.text), ' ', make('small', '', one.told)), { id: `offer${nth}` });
      item.setAttribute('role', 'option');
      item.setAttribute('aria-selected', false);
      item.addEventListener('pointerdown', event => { event.preventDefault(); this.take(nth); });
      return item;
    }));
    this.list.hidden = offers.length === 0;
    this.line.setAttribute('aria-expanded', offers.length > 0);
    this.line.removeAttribute('aria-activedescendant');
  }

  shut() { this.at = -1; this.show([]); }

  // Empties the box.
  clear() {
    this.line.value = '';
    this.tell('', false);
    this.shut();
  }

  // Down goes into the list and through it, Up through it; Enter takes what one is at, Tab what one began to type, Escape shuts the list.
  follow_key(event) {
    if (this.list.hidden) return;
    const typed = this.line.value.slice(this.from) !== '';
    const acts = {
      ArrowDown: () => this.go(Math.min(this.at + 1, this.offers.length - 1)),
      ArrowUp: this.at >= 0 && (() => this.go(this.at - 1)),
      Enter: this.at >= 0 && (() => this.take(this.at)),
      Tab: typed && !event.shiftKey && (() => this.take(Math.max(this.at, 0))),
      Escape: () => this.shut(),
    };
    if (!acts[event.key]) return;
    event.preventDefault();
    event.stopImmediatePropagation();
    acts[event.key]();
  }

  go(at) {
    this.at = at;
    [...this.list.children].forEach((item, nth) => item.setAttribute('aria-selected', nth === at));
    if (at < 0) this.line.removeAttribute('aria-activedescendant');
    else this.line.setAttribute('aria-activedescendant', `offer${at}`);
    this.list.children[at]?.scrollIntoView({ block: 'nearest' });
  }

  take(nth) {
    this.line.value = `${this.line.value.slice(0, this.from)}${this.offers[nth].text} `;
    this.line.focus({ preventScroll: true });
    this.look();
  }
}
