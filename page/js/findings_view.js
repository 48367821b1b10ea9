// Problems, lacks or the lines of a reply as a list. Each leads to the functions that it names.

import { parent_of } from './report.js';
import { make, make_button, put_text, when_pointed } from './marks.js';
import { with_numbers } from './names.js';

export class Findings {
  // `total` and `list` are elements, and `few` is how many are shown at first; `light` is given paths, and `choose` one; `functions` gives those
  // whose numbers are shown.
  constructor({ total, list, few }, light, choose, functions) { Object.assign(this, { total, list, few, light, choose, functions, whole: false, all: [], came: [] }); }

  // `told` is what stands for all of them; those that came are marked, but where that are all.
  draw(all, told, came = []) {
    Object.assign(this, { all, came: all.length === came.length ? [] : came });
    put_text(this.total, told);
    this.redraw();
  }

  redraw() {
    const { all, few, whole } = this;
    this.list.replaceChildren(...(whole ? all : all.slice(0, few)).map(one => this.item_of(one)));
    if (all.length <= few) return;
    const turn = () => { this.whole = !whole; this.redraw(); this.list.lastChild.firstChild.focus({ preventScroll: true }); };
    this.list.append(make('li', '', make_button(whole ? 'show fewer' : `${all.length - few} more`, turn, 'fold')));
  }

  // A function that isn't found leads to the bridge above it; what names none leads nowhere.
  item_of({ text, of, number }) {
    const said = with_numbers(text, this.functions());
    if (of.length === 0) return make('li', '', said);
    const last = of.at(-1).path, button = make_button(said, () => this.choose(number === null ? last : parent_of(last) || last));
    when_pointed(button, () => this.light(...of.map(one => one.path)), () => this.light());
    return make('li', this.came.includes(text) ? 'came' : '', button);
  }
}
