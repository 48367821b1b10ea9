// The lines that ran, to go back and forward through: a slider, buttons and keys, and what each line changed, before and after.

import { count_in_words } from './report.js';
import { make, make_button, put_text, when_pointed } from './marks.js';
import { with_numbers } from './names.js';

const SHOWN = 8;
const KEYS = { F8: -1, F9: 1 };

// One change in words, which leads to its function.
function item_of({ path, called: one_called, name, before, after }, choose, light) {
  const one = path === null ? make('span', '', name) : make_button(`${one_called} ${name}`, () => choose(path), 'plain');
  if (path !== null) when_pointed(one, () => light(path), () => light());
  return make('li', '', one, ': ', make('del', '', before), ' → ', make('ins', '', after));
}

const noted = (name, sign, texts, functions) => texts.map(text => make('li', name, `${sign} ${with_numbers(text, functions)}`));

export class Steps {
  // `parts` are its elements; `page` has `show`, which is given how many lines have run, `choose`, `light`, and `functions`.
  constructor(parts, page) {
    Object.assign(this, { parts, page, stops: [0], at: 0 });
    parts.step.addEventListener('input', () => this.go(Number(parts.step.value)));
    parts.step_back.addEventListener('click', () => this.go(this.at - 1));
    parts.step_on.addEventListener('click', () => this.go(this.at + 1));
    addEventListener('keydown', event => {
      if (KEYS[event.key] === undefined || event.ctrlKey || event.altKey || event.metaKey) return;
      event.preventDefault();
      this.go(this.at + KEYS[event.key]);
    });
  }

  // How many lines have run at each stop; one is at the last.
  count(stops) {
    Object.assign(this, { stops, at: stops.length - 1 });
    this.tell();
  }

  is_past() { return this.at < this.stops.length - 1; }

  to_now() { this.go(this.stops.length - 1); }

  go(at) {
    const to = Math.min(Math.max(at, 0), this.stops.length - 1);
    if (to === this.at) return;
    this.at = to;
    this.tell();
    this.page.show(this.stops[to]);
  }

  tell() {
    const { step, step_back, step_on, step_told } = this.parts, ran = this.at, all = this.stops.length - 1;
    Object.assign(step, { max: all, value: ran, disabled: all === 0 });
    for (const [button, is_end] of [[step_back, ran === 0], [step_on, ran === all]]) {
      // one that has the keys keeps them
      button.disabled = is_end && document.activeElement !== button;
      button.setAttribute('aria-disabled', is_end);
    }
    put_text(step_told, all === 0 ? 'no line has run' : ran === all ? `${count_in_words(all, 'line')} ran` : `as after ${ran} of ${count_in_words(all, 'line')}`);
    this.parts.go_on.hidden = ran === all;
    document.body.classList.toggle('past', ran < all);
  }

  // The line that ran last, its reply, and what it changed, with the problems that came and went.
  draw({ line, reply, changes, came, gone }) {
    const { last, last_reply, changes: list } = this.parts, { choose, light } = this.page;
    last.replaceChildren(...(line === null ? [] : [line, make('span', 'unit', ' → '), reply.split('\n')[0]]));
    last.title = last.textContent;
    put_text(last_reply, line === null ? '' : `Last reply: ${reply.split('\n')[0]}`);
    const functions = this.page.functions(), all = [...changes.map(one => item_of(one, choose, light)), ...noted('came', '+', came, functions), ...noted('gone', '−', gone, functions)];
    const more = all.length > SHOWN ? [make('li', '', `${all.length - SHOWN} more`)] : [];
    list.replaceChildren(...all.slice(0, SHOWN), ...more, ...(all.length === 0 && line !== null ? [make('li', 'unit', 'It changed no register.')] : []));
  }
}
