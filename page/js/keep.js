// The board and the script outlive the page: in the browser, and in a link.

import { packed, unpacked } from './packing.js';
import { State } from './state.js';

const KEY = 'pciguest';
const state_in = async text => (typeof text === 'string' ? State.read(text) : null);

// What was kept: a board file, what stood before the reader's lines, those lines, whom they are of, and the task that was begun, if there is one; in a
// link the name of whoever hands it in, and in the browser whether the lines came by a link.
async function read_kept(text) {
  const { board, script, as, task, lines, state, by, of_link } = JSON.parse(text);
  if (typeof board !== 'string' || typeof script !== 'string') return null;
  const from = { lines: typeof lines === 'string' ? lines : '', state: await state_in(state) };
  return { board, script, as: as === 'firmware' ? as : 'guests', from, task: await task_of(task), by: typeof by === 'string' ? by : '', of_link: of_link === true };
}

const task_of = async task => task && { ...task, state: await state_in(task.state) };

// Mail and chat programs cut links that are longer.
const LONGEST_LINK = 32 << 10;
export const kilobytes = length => `${Math.max(1, Math.round(length / 1024))} KB`;
export const is_too_long = fragment => fragment.length > LONGEST_LINK;
export const TOO_LONG = `mail and chat programs cut those above ${kilobytes(LONGEST_LINK)}`;

// Milliseconds after which a file is surely being saved.
const FORGOTTEN = 60000;

// Gives a text to the browser, which saves it as a file.
export function save_as(name, text, type) {
  const place = URL.createObjectURL(new Blob([text], { type }));
  Object.assign(document.createElement('a'), { href: place, download: name }).click();
  setTimeout(() => URL.revokeObjectURL(place), FORGOTTEN);
}

// What is handed out of a link: of a page from a disk the fragment alone, since its place is none elsewhere. It can be pasted into any page.
export const LINK = /^\S*(#(?:kept|task)=[\w.-]+)$/;
const is_on_disk = globalThis.location?.protocol === 'file:';
export const link_of = fragment => (is_on_disk ? `#${fragment}` : location.href);
export const PASTE = is_on_disk ? ' It goes behind the address of any copy of this page, or is pasted into one.' : '';

// The fragment of a link that holds something, under a name.
export async function fragment_of(held, name = 'kept') { return `${name}=${await packed(new TextEncoder().encode(JSON.stringify(held)))}`; }

const text_in = async text => new TextDecoder().decode(await unpacked(text));

// What such a link holds, or null where it is none: what was kept, or a task.
export async function kept_in(text) {
  try { return await read_kept(await text_in(text)); } catch { return null; }
}

export async function task_in(text) {
  try { return await task_of(JSON.parse(await text_in(text))); } catch { return null; }
}

// A browser that keeps nothing, as some do for files, is no fault.
function keep_now(held) {
  try { localStorage.setItem(KEY, JSON.stringify(held)); } catch { /* the page works without */ }
}

// Milliseconds after which a large board is kept, and what is large: the browser takes as long to keep it as the page to answer a line.
const KEPT_AFTER = 300, LARGE_TEXT = 1 << 16;
let unkept = null, keeps_at = 0;

function keep_rest() {
  clearTimeout(keeps_at);
  if (unkept !== null) keep_now(unkept);
  unkept = null;
}

export function keep(held) {
  unkept = held;
  clearTimeout(keeps_at);
  if (held.board.length < LARGE_TEXT) keep_rest();
  else keeps_at = setTimeout(keep_rest, KEPT_AFTER);
}

// With the page that is left nothing is lost.
export const keep_what_is_left = () => addEventListener('pagehide', keep_rest);

export async function kept() {
  try { return await read_kept(localStorage.getItem(KEY)); } catch { return null; }
}
