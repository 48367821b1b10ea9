// The board file as one edits it: its lines are numbered, and those that a check reports are marked. The board is set up again once one has
// stopped typing.

import { make, make_button } from './marks.js';

// How large a file the page takes, and what it says about a larger one.
export const LARGEST_FILE = 1 << 20;
export const too_large = bytes => `${(bytes / LARGEST_FILE).toFixed(1)} MB is too large: the page takes board files of up to 1 MB.`;

// Milliseconds without a letter after which one has stopped typing, and how many lines are numbered at once: of a longer file those around what
// is shown, as all of them take the browser seconds.
const TYPED = 200, NUMBERED = 1000;
// How many lines a file may have that is edited here: the browser takes half a minute to lay out a million.
const EDITED = 10000;
const lines_of = text => { let count = 1; for (let at = text.indexOf('\n'); at >= 0; at = text.indexOf('\n', at + 1)) count += 1; return count; };

export class FileView {
  // `parts` are the elements `editor`, `board`, `numbers`, `check` and `unfold`; `changed` is called once the file is another one, and `tell` says what is refused.
  constructor(parts, { changed, tell }) {
    Object.assign(this, { parts, changed, timer: null, wrong: new Set(), warned: new Set(), count: 0, first: 0, plain: null });
    parts.board.addEventListener('scroll', () => this.show_numbers());
    parts.board.addEventListener('input', () => { clearTimeout(this.timer); this.timer = setTimeout(() => this.settle(), TYPED); });
    parts.board.addEventListener('blur', () => this.settle());
    parts.board.addEventListener('focus', () => this.fold(false));
    parts.unfold.addEventListener('click', () => this.fold(parts.editor.classList.contains('unfolded')));
    parts.board.addEventListener('paste', event => {
      const pasted = event.clipboardData.getData('text'), { value, selectionStart: from, selectionEnd: to } = parts.board, length = value.length + pasted.length;
      if (length > LARGEST_FILE || lines_of(pasted) > EDITED) event.preventDefault();
      if (length > LARGEST_FILE) tell(too_large(length), true);
      else if (event.defaultPrevented) { this.put(value.slice(0, from) + pasted + value.slice(to)); this.changed(); }
    });
  }

  // The file takes no room until one edits it, or something in it is wrong.
  fold(is_folded) {
    const { editor, unfold } = this.parts;
    editor.classList.toggle('unfolded', !is_folded);
    unfold.setAttribute('aria-expanded', !is_folded);
    unfold.textContent = is_folded ? 'Edit the file' : 'Fold the file';
    if (!is_folded) this.show_numbers();
  }

  // Sets the board up at once if it waits for more letters.
  settle() {
    if (this.timer === null) return;
    clearTimeout(this.timer);
    this.timer = null;
    this.changed();
  }

  // Shows a file; of one with too many lines to edit, the first ones.
  put(text) {
    const { board, plain } = this.parts, count = lines_of(text), is_plain = count > EDITED;
    this.plain = is_plain ? text : null;
    Object.assign(board, { value: is_plain ? text.split('\n', NUMBERED).join('\n') : text, readOnly: is_plain });
    plain.hidden = !is_plain;
    plain.textContent = `This file has ${count.toLocaleString('en')} lines. The page uses all of them, shows the first ${NUMBERED.toLocaleString('en')}, and doesn't edit it.`;
  }

  text() { return this.plain ?? this.parts.board.value; }

  bytes() { return new TextEncoder().encode(this.text()); }

  // Numbers the lines of the file, and marks those of which a check tells: what is wrong, and what it warns of.
  number_lines(wrong, warned) {
    Object.assign(this, { wrong, warned, count: this.parts.board.value.split('\n').length, first: null });
    this.show_numbers();
  }

  // Shows the numbers beside the lines that are shown. They are made again once one has scrolled by half of them.
  show_numbers() {
    const { board, numbers } = this.parts, { wrong, warned, count } = this, height = parseFloat(getComputedStyle(board).lineHeight), step = NUMBERED / 2;
    const first = count <= NUMBERED ? 0 : Math.max(Math.floor(board.scrollTop / height / step - 0.5), 0) * step;
    if (first !== this.first) {
      const lines = Array.from({ length: Math.min(NUMBERED, count - first) }, (_, nth) => first + nth + 1);
      numbers.innerHTML = lines.map(line => (wrong.has(line) ? `<b>${line}</b>` : warned.has(line) ? `<i>${line}</i>` : line)).join('\n');
      this.first = first;
    }
    numbers.scrollTop = board.scrollTop - first * height;
  }

  // Puts the cursor into a line of the file, and shows it.
  go_to(line) {
    const { board } = this.parts, lines = board.value.split('\n');
    if (line > lines.length) return;
    const start = lines.slice(0, line - 1).reduce((at, one) => at + one.length + 1, 0);
    board.focus();
    board.setSelectionRange(start, start + lines[line - 1].length);
    board.scrollTop = (line - 1) * parseFloat(getComputedStyle(board).lineHeight) - board.clientHeight / 2;
  }

  // What a check says, message by message; one that names a line of the file leads there. Firmware is told no warnings: they speak of what set-up makes
  // of the file. Gives the first line that is told, or null.
  tell_check(text, as) {
    const told = text.split(/\n(?!  help: )/).filter(one => one !== '' && one !== 'ok').map(one => {
      const [, line, warning] = /^board\.toml:(\d+):\d+: (warning: )?/.exec(one) ?? [];
      return { one, line: Number(line ?? 0), warns: warning !== undefined };
    }).filter(({ warns }) => !warns || as !== 'firmware');
    this.parts.check.replaceChildren(...told.map(({ one, line, warns }) => make('li', warns ? 'warns' : '',
      line === 0 ? make('span', '', one) : make_button(one, () => this.go_to(line)))));
    const lines_of = what => new Set(told.filter(({ warns }) => warns === what).map(({ line }) => line));
    this.number_lines(lines_of(false), lines_of(true));
    return told.find(({ line }) => line !== 0)?.line ?? null;
  }
}
