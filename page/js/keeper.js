// The board goes elsewhere with its state: into a link, into a file, and back from there.

import { fragment_of, is_too_long, kilobytes, LINK, link_of, PASTE, save_as, TOO_LONG } from './keep.js';
import { LARGEST_FILE, too_large } from './file_view.js';
import { is_script } from './scripts.js';
import { count_in_words } from './report.js';
import { reveal } from './reveal.js';
import { State } from './state.js';
import { file_of, parts_of, why_no_task } from './state_file.js';

const FILE_NAME = 'board_with_state.toml', TASK_NAME = 'task.toml';
// What the image of a machine begins with.
const MAGIC = 'PCIM';

const count_of = lines => count_in_words(lines.split('\n').filter(line => line.trim() !== '').length, 'line');

// What a link or a file holds, and what not.
function told_of({ as, lines, state, script }, is_refused) {
  if (script !== undefined) return state ? 'the board, the state that came with it and the lines that were run since' : 'the board and the lines that were run';
  if (is_refused) return 'the file of the board alone: it is refused, so it has no state';
  if (state === null) return `the board and firmware's ${count_of(lines)}, which run again where it is opened: before host guests no guest has a state`;
  const before = as === 'firmware' ? `, the ${count_of(lines)} of firmware that handed it over,` : '';
  return `the board${before} and the state of its guests, but none of their lines`;
}

export class Keeper {
  // `parts` are its elements. `page` has `held`, the board with the lines that were run; `as_it_is`, the board with its state; `is_refused`;
  // `open`, which shows a board from a beginning on; `begin_task`; and `run`, which runs a script.
  constructor(parts, page) {
    Object.assign(this, { parts, told: parts.kept_told, page });
    parts.link.addEventListener('click', () => this.copy({ ...page.held(), of_link: undefined, by: parts.by.value.trim() || undefined }));
    parts.state_link.addEventListener('click', async () => this.copy(await page.as_it_is()));
    parts.state_file.addEventListener('click', async () => this.save(await page.as_it_is()));
    parts.open.addEventListener('change', async () => {
      const [file] = parts.open.files;
      if (file === undefined) return;
      if (file.size > LARGEST_FILE) this.tell(`${file.name} isn't opened: ${too_large(file.size)}`, true);
      else if (is_script(file.name)) page.run(await file.text());
      else await this.open(new Uint8Array(await file.arrayBuffer()));
      parts.open.value = '';
    });
    addEventListener('paste', event => { if (this.paste(event.clipboardData.getData('text'))) event.preventDefault(); });
    parts.paste.addEventListener('input', () => { if (this.paste(parts.paste.value)) parts.paste.value = ''; });
  }

  tell(words, is_wrong = false) {
    this.told.textContent = words;
    this.told.classList.toggle('wrong', is_wrong);
    if (is_wrong) reveal(this.told, this.parts);
  }

  // Puts a board into the address, and into the clipboard where that is allowed.
  async copy(kept) {
    const fragment = await fragment_of({ script: '', ...kept }), size = kilobytes(fragment.length);
    if (is_too_long(fragment)) { this.tell(`The link would have ${size}, and ${TOO_LONG}: keep a file in its place.`, true); return; }
    history.replaceState(null, '', `#${fragment}`);
    const copied = await navigator.clipboard?.writeText(link_of(fragment)).then(() => true, () => false);
    const where = copied ? 'copied' : "in this page's address";
    this.tell(`The link (${size}, ${where}) holds ${told_of(kept, this.page.is_refused())}.${PASTE}`);
  }

  // Takes a link that is pasted, whole or without what stands before its '#'.
  paste(text) {
    const fragment = LINK.exec(text.trim())?.[1];
    if (fragment !== undefined) location.hash = fragment;
    return fragment !== undefined;
  }

  save(kept) {
    const text = file_of(kept);
    save_as(kept.task ? TASK_NAME : FILE_NAME, text, 'application/toml');
    if (kept.task) return;
    this.tell(`${FILE_NAME} (${kilobytes(text.length)}) holds ${told_of(kept, this.page.is_refused())}. It is a board file to all others too.`);
  }

  // A board file, one with a state, or the image of a machine, which is one of the board that is shown.
  async open(bytes) {
    const text = new TextDecoder().decode(bytes), wrong = why_no_task(text);
    if (wrong !== null) { this.tell(wrong, true); return; }
    if (text.startsWith(MAGIC)) {
      const { board, as, lines } = await this.page.as_it_is();
      this.page.open(board, as, { lines, state: await State.of(bytes) });
      return;
    }
    const { board, as, lines, letters, task } = parts_of(text), state = letters === null ? null : await State.read(letters);
    if (task !== null) this.page.begin_task({ ...task, board, as, lines, state });
    else this.page.open(board, as ?? undefined, { lines, state });
  }
}
