// How a function's guest is told: by a colour, a letter and a pattern, in the order of the file.

const HUES = [250, 60, 150, 320, 25, 195, 105, 285];
const LETTERS = 'ABCDEFGHIJKLMNOPQRSTUVWXYZabcdef';
const PATTERNS = 7;

// The mark of each guest. Eight colours are easy to tell apart; the others lie between them. Letters tell all 32 apart.
export function marks_of(guests) {
  return new Map(guests.map((guest, nth) => [guest, { hue: nth < HUES.length ? HUES[nth] : (nth * 137.5) % 360, letter: LETTERS[nth], pattern: nth % PATTERNS }]));
}

export const mark_of = (owner, marks) => owner === undefined ? undefined : marks.get(owner.guest);

// An element with its class, and what is in it: texts and elements.
export function make(tag, name = '', ...parts) {
  const element = document.createElement(tag);
  element.className = name;
  element.append(...parts);
  return element;
}

// Acts while one points at an element, or has the keys at it.
export function when_pointed(element, enters, leaves) {
  for (const event of ['focus', 'pointerenter']) element.addEventListener(event, enters);
  for (const event of ['blur', 'pointerleave']) element.addEventListener(event, leaves);
}

// A table's rows, whose cells have the names of their columns.
export const head_of = names => make('tr', '', ...names.map(name => make('th', '', name)));

export function named_row(names, cells) {
  cells.forEach((cell, nth) => { cell.dataset.name = names[nth]; });
  return make('tr', '', ...cells);
}

// A button; `words` are its name where the text says less.
export function make_button(text, act, name = '', words = '') {
  const button = Object.assign(make('button', name, text), { type: 'button' });
  if (words) button.setAttribute('aria-label', words);
  button.addEventListener('click', act);
  return button;
}

// Another text; where it is the same, the browser need not lay the page out anew.
export function put_text(element, text) { if (element.textContent !== text) element.textContent = text; }

// A sign, and what it means for who hears the page.
export function sign(seen, meaning) {
  const mark = make('span', 'mark', seen);
  mark.setAttribute('aria-hidden', true);
  return [mark, make('span', 'unseen', meaning)];
}

// Puts a guest's colour on an element, or nobody's.
export function colour(element, mark) {
  element.classList.toggle('owned', mark !== undefined);
  element.classList.toggle('nobody', mark === undefined);
  if (mark !== undefined) element.style.setProperty('--hue', mark.hue);
}

// A guest's letter on its pattern.
export function badge(mark) {
  const one = make('b', 'badge', mark?.letter ?? '–');
  colour(one, mark);
  if (mark !== undefined) one.classList.add(`pattern${mark.pattern}`);
  return one;
}

export const owner_in_words = owner => owner === undefined ? 'no guest' : `guest ${owner.guest}, slot ${owner.slot}`;

// The legend: each guest, and the functions that no guest has.
export function draw_key(into, marks, some_have_none) {
  const those = [...marks].map(([guest, mark]) => [`guest ${guest}`, mark]);
  if (some_have_none) those.push(['no guest', undefined]);
  into.replaceChildren(...those.map(([name, mark]) => make('span', 'one', badge(mark), name)));
}
