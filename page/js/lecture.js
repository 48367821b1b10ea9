// What a lecturer needs beside the page: the notes on a lesson in a window of its own, larger type, and a picture of the board that stays beside the present one.

import { make, make_button, put_text } from './marks.js';

const ALT_KEYS = { KeyN: 'notes', KeyL: 'larger', KeyK: 'keep_picture' };
const NOTES_STYLE = 'body { font: 20px/1.5 system-ui, sans-serif; margin: 1.5rem; } code { font-size: 18px; } strong { display: block; margin-top: 1rem; }';
const WINDOW_BLOCKED = "The browser doesn't let this page open a window for the notes. Allow windows for this page, or read docs/lessons/README.md.";

// A part of the page as a picture, which nothing in it changes or answers.
function picture_of(part) {
  const copy = part.cloneNode(true);
  for (const one of copy.querySelectorAll('button, #audited, .told, [role=status]')) one.remove();
  for (const one of copy.querySelectorAll('[id], [tabindex], [role]')) for (const name of ['id', 'tabindex', 'role', 'aria-label']) one.removeAttribute(name);
  copy.inert = true;
  return copy;
}

const drawn = () => new Promise(done => requestAnimationFrame(() => requestAnimationFrame(done)));

export class Lecture {
  // `parts` are its elements; `told` says of which moment a picture is, and `tell` what can't be done.
  constructor(parts, { told, tell }) {
    Object.assign(this, { parts, told, tell, window: null });
    addEventListener('keydown', event => {
      if (!event.altKey || ALT_KEYS[event.code] === undefined) return;
      event.preventDefault();
      this[ALT_KEYS[event.code]]();
    });
    parts.keep_picture.addEventListener('click', () => this.keep_picture());
    new MutationObserver(() => this.write()).observe(parts.notes, { childList: true });
  }

  larger() { document.documentElement.classList.toggle('larger'); }

  // The notes are never on the page, which may be projected; the window follows the lesson.
  notes() {
    if (this.window !== null && !this.window.closed) { this.window.close(); this.window = null; return; }
    this.window = open('', 'pciguest_notes', 'popup,width=560,height=760');
    if (this.window === null) this.tell(WINDOW_BLOCKED, true);
    else this.write();
  }

  write() {
    if (this.window === null || this.window.closed) return;
    const { document: sheet } = this.window, { notes, task_title } = this.parts, has_notes = notes.childElementCount > 0;
    sheet.title = 'Notes';
    sheet.head.replaceChildren(sheet.importNode(make('style', '', NOTES_STYLE), true));
    sheet.body.replaceChildren(...[make('h1', '', has_notes ? task_title.textContent : 'Begin a lesson: its notes are shown here.'), ...notes.cloneNode(true).childNodes]
      .map(one => sheet.importNode(one, true)));
  }

  // Another picture takes the place of the one before.
  async keep_picture() {
    const { pictures } = this.parts, close = make_button('×', () => { pictures.firstElementChild.remove(); document.body.removeAttribute('data-beside'); }, 'fold', 'Close the picture');
    if (document.body.hasAttribute('data-beside')) pictures.firstElementChild.remove();
    document.body.toggleAttribute('data-beside', true);
    await drawn();
    const told = make('p', 'hint', close, ' ');
    told.append(make('span', '', this.told()));
    pictures.prepend(make('figure', 'picture', told, picture_of(pictures.querySelector('.abreast'))));
    put_text(this.parts.heard, 'The picture is kept beside the board');
  }
}
