// The tree of buses and the table of functions. Buses fold, and a large board begins folded.

import { hex, parent_of, size_in_words } from './report.js';
import { badge, colour, head_of, make, make_button, mark_of, named_row, owner_in_words, sign, when_pointed } from './marks.js';
import { number_shown, UNNUMBERED, with_numbers } from './names.js';
import { same_list, same_owners } from './same.js';

export const LARGE = 64;
const MANY = 12, TOLD = 8;
const COLUMNS = ['Number', 'Guest', 'Path', 'Class and identity', 'Regions and windows', 'Interrupt'];

// What a function holds, part by part, except regions whose being disabled is already told as left to do.
export function places_of(one, lacks = []) {
  const is_told = region => lacks.some(text => text.startsWith(`${one.path} ${region.name} at `));
  const places = one.regions.map(region => `${region.name} ${region.kind} at ${hex(region.first)} to ${hex(region.first + region.size - 1n)}, ${size_in_words(region.size)}`)
    .concat(one.windows.map(window => `${window.space} window ${hex(window.first)} to ${hex(window.last)}`));
  const disabled = [...(one.all_regions ?? []).filter(region => !region.open && !is_told(region)).map(region => `${region.name} ${region.kind} disabled, ${size_in_words(region.size)}`),
    ...(one.all_windows ?? []).filter(window => !window.open).map(window => `${window.space} window disabled`)];
  if (one.buses) places.unshift(`bridge to bus ${one.buses[1]}, last bus ${one.buses[2]}`);
  return [...places, ...disabled];
}

// The first of many texts, and how many more there are.
const few_of = texts => (texts.length > TOLD ? [...texts.slice(0, TOLD), `${texts.length - TOLD} more`] : texts);

// A sign with how many texts it stands for, if any.
function signs_of(name, seen, meaning, texts) {
  if (texts.length === 0) return [];
  return [make('b', name, ...sign(texts.length === 1 ? seen : `${seen} ${texts.length}`, ` ${meaning}: ${texts.length} `))];
}

// The path, which no other function has and a line may end in behind each bridge, and the identity.
function small_of({ path, identity }) {
  return make('small', '', make('span', 'path', ...path.split(/(?<=\/)/).flatMap(step => [step, make('wbr')])), ' ', identity);
}

// Two buses may have one number, but for all that have none.
function bus_in_table({ bus, path }) {
  const above = parent_of(path);
  return bus === UNNUMBERED || above === '' ? `bus ${bus}` : `bus ${bus} behind ${above}`;
}

const line_of = (name, seen, meaning, text) => make('div', name, ...sign(`${seen} `, `${meaning}: `), text);

// Whether a table that is drawn is as it would be drawn again. What the last line changed isn't in it.
function table_is_as_drawn(one, other) {
  return one.marks === other.marks && one.turned === other.turned && same_list(one.functions, other.functions) && same_owners(one.owners, other.owners)
    && ['troubles', 'lacks', 'causes'].every(name => one[name] === other[name] || one[name].size + other[name].size === 0);
}

export class Board {
  // `parts` are the elements `tree`, `told` and `table`; `light` is given the path of a function, or null, `choose` that of one
  // that is chosen, and `ask` such a function first where no cycle finds it.
  constructor(parts, light, choose, ask) { Object.assign(this, { parts, light, choose, ask, chosen: null, turned: new Set(), whole: new Set(), tabled: null }); }

  forget() { this.turned.clear(); this.whole.clear(); this.tabled = null; }

  // The texts that name a function, by its path: as wrong, as lacking something, as a cause of what was asked, and as changed by the last line.
  draw(functions, owners, marks, { troubles, lacks, causes, changes }) {
    const below = Map.groupBy(functions, one => parent_of(one.path));
    Object.assign(this, { functions, owners, marks, troubles, lacks, causes, changes, below, behind: new Map() });
    this.redraw();
  }

  redraw() {
    this.parts.tree.replaceChildren(this.bus_of('', '00'), ...this.parts.tree.querySelectorAll('.cycle'));
    this.draw_table();
  }

  // Whether a bus is open; a large board's are folded until they are turned.
  is_open(key) { return this.turned.has(key) === (this.functions.length > LARGE); }

  turn(set, key, find) {
    if (!set.delete(key)) set.add(key);
    this.redraw();
    document.querySelector(find)?.focus({ preventScroll: true });
  }

  bus_of(parent, name) {
    const all = this.below.get(parent) ?? [], few = all.length > MANY * 2 && !this.whole.has(parent) ? all.slice(0, MANY) : all;
    const on = make('div', 'on', ...few.map(one => this.function_of(one))), rail = make('div', 'rail', `bus ${name}`);
    if (all.length > MANY * 2) {
      const words = few === all ? 'show fewer' : `${all.length - MANY} more`;
      const more = make_button(words, () => this.turn(this.whole, parent, `[data-more="${parent}"]`), 'fold', `bus ${name}: ${words}`);
      more.dataset.more = parent;
      on.append(more);
    }
    if (name === UNNUMBERED) rail.title = `This bus has no number: Secondary of ${parent}, the bridge before it, is 00`;
    return make('div', 'bus', rail, on);
  }

  function_of(one) {
    const row = make('div', 'function', this.chip_of(one));
    if (one.kind !== 'bridge') return row;
    const open = this.is_open(one.path), count = (this.below.get(one.path) ?? []).length;
    const fold = make_button(open ? '−' : `+${count}`, () => this.turn(this.turned, one.path, `[data-fold="${one.path}"]`), 'fold',
      `${open ? 'Fold' : 'Unfold'} bus ${one.buses[1]}`);
    fold.dataset.fold = one.path;
    fold.setAttribute('aria-expanded', open);
    row.append(fold);
    if (open) row.append(this.bus_of(one.path, one.buses[1]));
    return row;
  }

  // What is told of a function, and of those behind a bridge whose bus is folded.
  told_at(one, texts) {
    const own = texts.get(one.path) ?? [];
    if (one.kind !== 'bridge' || this.is_open(one.path) || texts.size === 0) return own;
    return [...new Set([...own, ...this.all_below(one.path).flatMap(path => texts.get(path) ?? [])])];
  }

  // The paths of all functions behind a bridge.
  all_below(path) {
    if (!this.behind.has(path)) this.behind.set(path, (this.below.get(path) ?? []).flatMap(one => [one.path, ...this.all_below(one.path)]));
    return this.behind.get(path);
  }

  chip_of(one) {
    const owner = this.owners.get(one.path), mark = mark_of(owner, this.marks), chip = make('div', 'chip');
    const [troubles, lacks, causes, changes] = [this.troubles, this.lacks, this.causes, this.changes].map(texts => this.told_at(one, texts));
    const owned = one.kind === 'bridge' || this.marks.size === 0 ? [] : [owner_in_words(owner)];
    const said = texts => few_of(texts).map(text => with_numbers(text, this.functions));
    const words = [`${number_shown(one)}, ${one.words}, ${one.path}`, ...said(troubles), ...said(lacks).map(text => `left to do: ${text}`),
      ...said(causes).map(text => `why: ${text}`), ...few_of(changes).map(text => `changed: ${text}`), ...(one.lost ? ['a click or Enter asks why'] : []), ...owned, ...places_of(one, lacks)];
    chip.title = words.join('\n');
    chip.dataset.path = one.path;
    chip.tabIndex = 0;
    if (one.kind === 'bridge') chip.classList.add('bridge');
    else { colour(chip, mark); chip.append(badge(mark)); }
    const signs = make('span', 'signs', ...signs_of('bang', '!', 'wrong', troubles), ...signs_of('lack', '○', 'left to do', lacks),
      ...signs_of('cause', '?', 'why', causes), ...signs_of('change', 'Δ', 'changed', changes));
    chip.append(`${number_shown(one)} ${one.words}`, signs, small_of(one));
    chip.classList.toggle('troubled', troubles.length > 0);
    chip.classList.toggle('lost', Boolean(one.lost));
    chip.classList.toggle('changed', changes.length > 0);
    if (this.chosen !== null) this.let_choose(chip, one);
    const tell = said => { this.parts.told.textContent = said ? words.join('; ') : ''; this.light(said ? one.path : null); };
    when_pointed(chip, () => tell(true), () => tell(false));
    return chip;
  }

  let_choose(chip, one) {
    const act = () => { if (one.lost) this.ask(one); this.choose(one.path); };
    chip.setAttribute('role', 'button');
    chip.setAttribute('aria-pressed', one.path === this.chosen);
    chip.classList.toggle('chosen', one.path === this.chosen);
    chip.addEventListener('click', act);
    chip.addEventListener('keydown', event => { if (event.key === 'Enter' || event.key === ' ') { event.preventDefault(); act(); } });
  }

  draw_table() {
    const { functions, owners, marks, troubles, lacks, causes } = this;
    const now = { functions, owners: new Map(owners), marks, troubles, lacks, causes, turned: [...this.turned].join() };
    if (this.tabled !== null && table_is_as_drawn(now, this.tabled)) return;
    this.tabled = now;
    const groups = [...Map.groupBy(functions, bus_in_table)].flatMap(([key, all]) => {
      const open = this.is_open(key);
      const fold = make_button(`${open ? '−' : '+'} ${key}: ${all.length}`, () => this.turn(this.turned, key, `[data-fold="${key}"]`), 'fold',
        `${open ? 'Fold' : 'Unfold'} ${key} of the table`);
      fold.dataset.fold = key;
      fold.setAttribute('aria-expanded', open);
      const cell = Object.assign(make('td', '', fold), { colSpan: COLUMNS.length });
      return [make('tr', 'group', cell), ...(open ? all.map(one => this.row_of(one)) : [])];
    });
    this.parts.table.replaceChildren(head_of(COLUMNS), ...groups);
  }

  row_of(one) {
    const owner = this.owners.get(one.path), lacks = this.lacks.get(one.path) ?? [], taken = make('td', 'owner');
    const [troubles, said_lacks, causes] = [this.troubles, this.lacks, this.causes].map(texts => (texts.get(one.path) ?? []).map(text => with_numbers(text, this.functions)));
    const held = make('td', '', ...troubles.map(text => line_of('wrong', '!', 'wrong', text)), ...said_lacks.map(text => line_of('lacks', '○', 'left to do', text)),
      ...causes.map(text => line_of('causes', '?', 'why', text)), ...places_of(one, lacks).map(place => make('div', '', place)));
    if (one.kind !== 'bridge') taken.append(badge(mark_of(owner, this.marks)), owner ? `${owner.guest}, slot\u00a0${owner.slot}` : 'no guest');
    const [number, path, kind, interrupt] = [number_shown(one), one.path, `${one.words} ${one.identity}`, one.interrupt].map(text => make('td', '', text));
    const row = named_row(COLUMNS, [number, taken, path, kind, held, interrupt]);
    row.dataset.path = one.path;
    return row;
  }
}
