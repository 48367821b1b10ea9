// What bars are drawn of: regions with the mark of their guest and a name, and addresses below.

// the width of a letter of 13 pixels
const LETTER = 7.9;

export function svg(tag, attributes, ...parts) {
  const element = document.createElementNS('http://www.w3.org/2000/svg', tag);
  for (const [name, value] of Object.entries(attributes)) element.setAttribute(name, value);
  element.append(...parts);
  return element;
}

// The longest of some names that fits a width, as text, or nothing.
export function name_in(names, x, width, y, name = 'name') {
  const fits = names.find(one => one.length * LETTER + 8 <= width);
  return fits === undefined ? [] : [svg('text', { x: x + width / 2, y, class: name, 'text-anchor': 'middle' }, fits)];
}

// A region: its colour, its pattern, and the longest name that fits, behind its guest's letter where there are guests.
export function region_box(x, width, y, height, mark, names, wrong = '', lettered = true) {
  const sides = { x, width: Math.max(width, 2), y, height };
  const all = svg('g', { class: `region${wrong}` }, svg('rect', { ...sides, class: mark === undefined ? 'fill nobody' : 'fill' }));
  if (mark !== undefined) all.style.setProperty('--hue', mark.hue);
  if (mark?.pattern) all.append(svg('rect', { ...sides, fill: `url(#pattern${mark.pattern})`, 'pointer-events': 'none' }));
  const letter = mark?.letter ?? '–';
  const told = lettered ? [...names.map(one => `${letter} ${one}`), letter] : names;
  all.append(...name_in(told, x, width, y + height / 2 + 4));
  return all;
}

// A region or a window that Command disables: its edge in dashes, with the longest name that fits its first row.
export function ghost_box(x, width, y, height, names, row, state, ...parts) {
  const edge = svg('rect', { x, y, width: Math.max(width, 4), height }), name = name_in(names, x, width, y + row / 2 + 4, 'of');
  return svg('g', { class: `ghost${state}` }, edge, ...name, ...parts);
}

// How wide the gutter on each side of a bar is.
export const gutter_of = width => Math.round(Math.min(Math.max(width * 0.12, 44), 96));

// What is in a gutter: the longest name that fits, and all of it in words.
export const gutter_box = (x, width, y, height, names, text, state) =>
  ghost_box(x, width, y, height, names, height, ` beside${state}`, svg('title', {}, text));

// Where a problem or a lack is seen: a line, with a sign at its upper end.
const sign_at = (name, x, height, text, ...sign) =>
  svg('g', { class: name }, svg('title', {}, text), svg('line', { x1: x, x2: x, y1: 0, y2: height }), ...sign);
const inside = (x, width) => Math.min(Math.max(x, 6), width - 6);

export function bang_at(x, width, height, text) {
  const at = inside(x, width);
  return sign_at('bang-at', x, height, text, svg('path', { d: `M${at - 6} 0H${at + 6}L${x} 10Z` }));
}

export const lack_at = (x, width, height, text) => sign_at('lack-at', x, height, text, svg('circle', { cx: inside(x, width), cy: 6, r: 4 }));

// What is asked at an address.
export function question_mark_at(x, width, height, text) {
  const at = inside(x, width), mark = svg('text', { x: at, y: 11, 'text-anchor': 'middle' }, '?');
  return sign_at('asked-at', x, height, text, svg('circle', { cx: at, cy: 7, r: 6 }), mark);
}

// An edge around a place, whether anything is drawn there or not: one that a cause names, or one where something stood before the last line.
const edge_box = (name, x, width, y, height, text) =>
  svg('rect', { x, y, width: Math.max(width, 2), height, class: name }, svg('title', {}, text));
export const cause_box = (x, width, y, height, text) => edge_box('cause-at', x, width, y, height, text);
export const before_box = (x, width, y, height, text) => edge_box('was-at', x, width, y, height, `before: ${text}`);

// Addresses under or above a bar: [{ x, text }], the first ones first. One that would lie on another, or say the same, is left out.
export function ticks(wanted, width, y, rows, step) {
  const taken = Array.from({ length: rows }, () => []);
  const drawn = [], told = new Set();
  for (const { x, text } of wanted) {
    if (told.has(text)) continue;
    const half = text.length * LETTER / 2, from = Math.min(Math.max(x - half, 0), Math.max(width - 2 * half, 0));
    drawn.push(svg('line', { x1: x, x2: x, y1: y, y2: y + 4 * Math.sign(step), class: 'tick' }));
    const row = taken.findIndex(those => those.every(([a, b]) => from + 2 * half + 8 <= a || b + 8 <= from));
    if (row < 0) continue;
    taken[row].push([from, from + 2 * half]);
    told.add(text);
    drawn.push(svg('text', { x: from, y: y + (step > 0 ? 15 : -6) + row * step, class: 'address' }, text));
  }
  return drawn;
}

// The patterns of marks, for the whole page. Those for the text's marks stand in the style sheets.
export function patterns() {
  const lines = ['', 'M0 8L8 0', 'M0 0L8 8', 'M4 0V8', 'M0 4H8', 'M4 0V8M0 4H8', 'M0 8L8 0M0 0L8 8'];
  return svg('svg', { width: 0, height: 0, style: 'position: absolute', 'aria-hidden': 'true' },
    ...lines.map((d, nth) => svg('pattern', { id: `pattern${nth}`, width: 8, height: 8, patternUnits: 'userSpaceOnUse' },
      svg('path', { d, class: 'weave' }))));
}
