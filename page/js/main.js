// The page: its parts, and what happens as one types.

import { Engine } from './engine.js';
import { apertures_in, counts_in_words, read_json, report_in } from './report.js';
import { light } from './light.js';
import { register_in } from './register_in_line.js';
import { class_of } from './classes.js';
import { draw_key, marks_of } from './marks.js';
import { patterns } from './bars.js';
import { Board, LARGE } from './board_view.js';
import { Addresses } from './address_view.js';
import { GuestMaps } from './guest_view.js';
import { all_placed, open_among } from './guest_map.js';
import { Console } from './console.js';
import { ScriptBox } from './script_box.js';
import { Registers } from './registers.js';
import { GuestRegisters } from './guest_registers.js';
import { Firmware } from './firmware_view.js';
import { keep, keep_what_is_left } from './keep.js';
import { Keeper } from './keeper.js';
import { wire_leads } from './leads.js';
import { Opening } from './opening.js';
import { FRESH, NO_BOARD, State, UNREADABLE, why_not_loaded } from './state.js';
import { Lessons } from './lessons.js';
import { TaskForm } from './task_form.js';
import { places_on } from './places.js';
import { Question } from './question.js';
import { question_at } from './why.js';
import { texts_by_path } from './findings.js';
import { with_numbers } from './names.js';
import { asked_of, keeping_latch } from './asked.js';
import { texts_of_changes } from './changes.js';
import { bring_guest, HANDS_OVER, owners_in, path_in } from './replay.js';
import { reveal } from './reveal.js';
import { Moments } from './moments.js';
import { FileView } from './file_view.js';
import { sent_by, sent_by_guest, way_of } from './way.js';
import { WayView } from './way_view.js';
import { Wired } from './wired.js';
import { tell_unable } from './unable.js';
import { Scripts } from './scripts.js';
import { Lecture } from './lecture.js';

const part = Object.fromEntries([...document.querySelectorAll('[id]')].map(one => [one.id, one]));
const still = matchMedia('(prefers-reduced-motion: reduce)').matches;
let shows_before = true, engine = null, machine = null, functions = [], owners = new Map(), first_owners = owners, marks = new Map(), apertures = {}, as = 'guests', beginning = FRESH;

// Whether firmware has given its board to the guests of the file: its lines are a script's from there on.
const given = () => as === 'firmware' && Boolean(firmware.now?.given);
const choose = (path, takes_keys) => (as === 'firmware' && !given() ? firmware : guest_registers).choose(path, takes_keys);
const give = line => script_console.give(line);
const answers = () => (as === 'firmware' ? firmware.driven : machine);
const speaking = () => (given() ? 'guests' : as);
const guests = () => (speaking() === 'firmware' ? [] : [...marks.keys()]);
const whose = () => ({ as: speaking(), guests: guests(), functions: functions_now(), explain: line => answers()?.explain(line) ?? { why: '', at: 0 } });
// What is asked of firmware's board, or of a guest: why something finds what it finds.
const question = new Question(part.heard, { light, choose, path_in: (guest, slot) => path_in(owners, { guest, slot }), held: answers, driven: () => (speaking() === 'firmware' ? firmware.driven : null), functions: () => functions_now(),
  reveal: one => reveal(one, part), changed: () => { if (as !== 'firmware') question.look(); draw(); } });
const board = new Board({ tree: part.tree, told: part.told, table: part.functions }, light, choose, ask_of_lost);
const addresses = new Addresses(part.addresses, light, question);
const maps = new GuestMaps(part.maps, light, question, part.asked_there);
const registers = new Registers(part, choose, { wired: (path, places) => wired.read_back(path, places), moment: () => moments.about() });
const guest_registers = new GuestRegisters(part, registers, board, give);
const firmware = new Firmware(part, board, addresses, registers, light, give);
const box = new ScriptBox(part, known, follow_register);
const script_console = new Console(part, box,
  { machine: answers, whose, moved, heard: (line, reply) => lessons.hear(line, reply), begins, ran, question });
const lacks = () => (firmware.now === null ? ['only firmware can ask'] : [...firmware.now.problems, ...firmware.now.lacks].map(one => with_numbers(one.text, functions_now())));
const lessons = new Lessons(part, TASKS, { open: open_task, move_live, held: answers, guests, left: set_up, lacks, functions: () => functions_now() });
const shown = () => ({ board: file_view.text(), as });
const file_view = new FileView(part, { changed: set_up, tell: (...words) => keeper.tell(...words) });
const keeper = new Keeper(part, { held, as_it_is, is_refused: () => answers() === null, open: open_beginning, begin_task: task => lessons.take_up(task), run: text => scripts.run(text) });
new TaskForm(part, { shown: () => ({ ...whose(), ...shown() }), is_met: goal => lessons.is_met(goal, as), with_lines, as_it_is, save: made => keeper.save(made) });
// The width up to which guests' registers begin folded, and what a file is refused by that is no TOML.
const NARROW = 640, NOT_TOML = 101;
let following = false, unseen = false, has_moved = false, has_marks = false, wired = null, sent = null;
const read_only = line => (as === 'firmware' ? keeping_latch(answers(), () => asked_of(answers(), line)) : asked_of(answers(), line));
// What each line changed, and the board as it was then.
const moments = new Moments(part, { shown: () => ({ held: answers(), functions, owners, now: as === 'firmware' ? firmware.now : null }), show: show_moment,
  read: read_only, lines: all_lines, copy: () => copy_of_board(), choose, light, functions: () => functions_now() });
const scripts = new Scripts(part, { console: script_console, steps: moments.steps, start_again });
new Lecture(part, { told: () => `${part.boards.selectedOptions[0].textContent}, ${part.step_told.textContent}${moments.last.line === null ? '' : `: ${moments.last.line}`}`, tell: (...words) => keeper.tell(...words) });
const way = new WayView(part, { still, find: sent_now, way_of: found => way_of(found, functions_now()), passed: what => { sent = what; draw(); } });

// What one may type about: the functions with their numbers as they are now, and where regions stand.
function known() {
  if (answers() === null) return null;
  const those = functions_now();
  const open_of = who => open_among(all_placed(answers(), those, owners)).filter(one => one.owner.guest === who);
  return { ...whose(), owners, places: who => places_on(who === 'host' ? those : open_of(who)) };
}

function moved(from, to) {
  const path = path_in(owners, from);
  if (path !== undefined) { owners.set(path, to); question.doubt(); has_moved = true; }
}

// What is kept of the board and of what the reader does. A task has a beginning of its own.
function held() {
  file_view.settle();
  const task = lessons.kept();
  return { ...shown(), ...(task ? { task, of_link: lessons.of_link || undefined } : beginning), script: script_console.script() };
}

// The board with all lines that lead here, where no state stands between them.
function with_lines() {
  moments.to_now();
  return beginning.state === null ? { ...shown(), lines: script_console.all_lines(), state: null } : as_it_is();
}

// The board with the state of its guests, and the lines by which firmware gave it to them. Where no guest has it, all lines lead here.
async function as_it_is() {
  file_view.settle();
  moments.to_now();
  const image = answers()?.save() ?? null;
  if (image === null) return { ...shown(), lines: script_console.all_lines(), state: null };
  return { ...shown(), lines: script_console.handed, state: await State.of(image) };
}

// A board is looked at before a line gives it to its guests, as it doesn't tell from there on what it lacks. What runs before a task
// isn't noted.
function begins(line, is_noted) {
  if (is_noted) moments.begins(line);
  if (as !== 'firmware' || given() || !HANDS_OVER.test(line)) return;
  if (is_noted) note();
  else firmware.look();
}

// The panel of registers shows the function that a line names, and the bits of its register with what is typed for it.
function follow_register(line) {
  const found = answers() === null || moments.is_past() ? null : register_in(line, functions_now(), owners);
  if (found === null) return;
  if (board.chosen !== found.path) choose(found.path, false);
  if (found.offset !== null) registers.preview(found.offset, found.width, found.value);
}

// What is wrong after a line of firmware is noted under it; on a large board, after all that run at once. Reads and questions change nothing.
function ran(line, reply) {
  moments.ends(line, reply);
  unseen ||= reply.endsWith(': ok');
  if (as === 'firmware' && functions.length <= LARGE) note();
  follow();
}

function note() {
  if (!unseen) return;
  unseen = false;
  const { came, gone } = firmware.look();
  script_console.note(came, gone);
}

// After the lines that run at once, and not after each, what guests or firmware open is drawn and the script is kept.
function follow() {
  if (following) return;
  following = true;
  queueMicrotask(() => {
    following = false;
    if (as === 'firmware' && functions.length > LARGE) note();
    if (!moments.is_past() && moments.look()) way.forget();
    draw(look_at_question() || has_moved);
    has_moved = false;
    if (moments.is_past()) return;
    lessons.look();
    keep(held());
  });
}

// The lines that ran: those before a task can be gone through where they are shown, and nothing before a state that was loaded.
function all_lines() {
  const { prepared, said } = script_console;
  return { lines: [...prepared, ...said], hidden: shows_before && beginning.state === null ? 0 : prepared.length };
}

const open_board = () => (as === 'firmware' ? engine.open_at_reset(file_view.bytes()) : engine.open(file_view.bytes())).made;
const copy_of_board = () => ({ seed: answers() ?? {}, others: firmware.now?.functions, functions, owners: first_owners, decodes: as === 'firmware' ? firmware.decodes : null, state: beginning.state,
  prepared: script_console.prepared.length, open: open_board });

// Shows another moment of the board, after so many lines.
function show_moment({ held: answering, owners: those, now }, count) {
  owners = those;
  if (as === 'firmware') firmware.show(answering, now);
  else machine = answering;
  way.forget();
  registers.forget();
  script_console.mark(count);
  lessons.stand(moments.is_past());
  question.doubt();
  look_at_question();
  draw();
}

// What goes down the board that is shown: what is asked, or else what the last line sent; null where nothing does.
function sent_now() {
  const line = question.asked?.call === null ? question.asked.line : moments.last.line;
  if (line === null || answers() === null) return null;
  const those = functions_now(), open = speaking() === 'guests' ? open_among(moments.placed() ?? all_placed(answers(), those, owners)) : [];
  return sent_by(line, () => answers().number('host ir 0xcf8 4')) ?? sent_by_guest(line, open, (guest, slot) => path_in(owners, { guest, slot }), those);
}

const functions_now = () => (as === 'firmware' ? firmware.now?.functions ?? [] : functions);

function draw_guests(held, those) {
  maps.draw(moments.placed() ?? all_placed(held, those, owners), owners, marks, moments.last.changes);
  guest_registers.draw(held, those, owners);
}

// The question as the board that is shown answers it; a board that is given answers none of firmware's. Whether it has another reply.
function look_at_question() {
  if (given()) { question.forget_firmware(); script_console.ask_no_more(); }
  return question.look();
}

// What firmware sees, with what it asks, and the guests' part beside it once they have the board.
function draw_firmware(whole) {
  look_at_question();
  part.verdict.classList.toggle('doubted', (firmware.now?.problems.length ?? 0) > 0);
  if (whole || !firmware.is_drawn) firmware.draw(apertures, owners, marks, marked_now(), moments.last.changes);
  else firmware.draw_registers();
  document.body.toggleAttribute('data-given', given());
  if (given()) draw_guests(firmware.driven, firmware.now.functions);
}

// Why no cycle finds a function, by the number at which it is looked for, which is told with the bridge that gives it.
function ask_of_lost({ path, place }) {
  const asked = { ...question_at('cfg', place), path, about: () => firmware.now.way_to(path) };
  question.turn(asked, part.asked, () => document.querySelector(`#tree [data-path="${path}"]`));
}

// What is asked, or else the address that is on its way.
function marked_now() {
  const asked = question.marked();
  return asked.address !== null || sent === null || sent.space === 'cfg' ? asked : { ...asked, space: sent.space, address: sent.place };
}

// Draws all, or what a line may change that writes nothing, or is a guest's: nothing of the board's own addresses.
function draw(whole = true) {
  draw_board(whole);
  way.offer();
}

function draw_board(whole) {
  document.body.toggleAttribute('data-given', given());
  draw_key(part.guests, marks, functions.some(one => one.kind !== 'bridge' && !owners.has(one.path)));
  moments.steps.draw(moments.last);
  const asked = marked_now(), { changes } = moments.last, texts = texts_of_changes(changes), is_marked = whole || has_marks || texts.size > 0;
  has_marks = texts.size > 0;
  if (as === 'firmware') { draw_firmware(is_marked); return; }
  if (machine === null) return;
  if (is_marked) board.draw(functions, owners, marks, { troubles: new Map(), lacks: new Map(), causes: texts_by_path(asked.causes), changes: texts });
  if (whole) addresses.draw(functions, apertures, owners, marks, { problems: [], lacks: [], asked, changes });
  draw_guests(machine, functions);
}

// A line that works on this board, if it was taken.
function first_line() {
  if (as === 'firmware') return firmware.first_line();
  const [taken] = owners.values();
  if (machine === null) return '';
  return taken ? `${taken.guest} cr ${taken.slot} 0 4` : `host cr ${functions[0]?.place ?? '00:00.0'} 0 4`;
}

// Takes the report of a file, and opens its machine.
function take(text, file) {
  const decoder = new TextDecoder(), read = report_in(read_json(decoder.decode(engine.report_json(file).text)));
  machine = engine.open(file).made;
  functions = read.functions.map(one => ({ ...one, words: class_of(machine, one.place) }));
  owners = new Map(read.slots.map(({ guest, slot, path }) => [path, { guest, slot }]));
  first_owners = new Map(owners);
  marks = marks_of(machine.guests());
  apertures = apertures_in(file_view.text());
  part.report.textContent = decoder.decode(text);
  tell(false, as === 'firmware' ? `Driven by firmware: ${counts_in_words(functions, null)}` : `Set up: ${counts_in_words(functions, marks.size)}`);
}

// Sets the board up anew, and draws it. A task ends there, but for its own beginning.
function set_up() {
  lessons.leave();
  beginning = FRESH;
  moments.to_now();
  way.forget();
  keeper.tell('');
  if (machine !== null) machine.close();
  machine = null;
  firmware.close();
  const file = file_view.bytes(), report = engine.report(file), line = file_view.tell_check(new TextDecoder().decode(engine.check(file).text), as);
  for (const one of [board, addresses, question]) one.forget();
  if (report.number === 0) take(report.text, file);
  else tell(true, `${report.number} ${WORDS[report.number] ?? ''}${report.number === NOT_TOML && line !== null ? `; it can't be parsed from line ${line} on` : ''}`);
  if (as === 'firmware') firmware.open(engine.open_at_reset(file).made, machine, machine === null ? [] : functions);
  else guest_registers.open(machine === null ? [] : functions, owners);
  script_console.clear(marks, first_line());
  moments.forget();
  wired = new Wired(() => engine.open_at_reset(file_view.bytes()).made, functions);
  moments.look();
  draw();
  follow();
}

function tell(wrong, text) {
  part.verdict.textContent = text;
  part.verdict.classList.toggle('wrong', wrong);
  part.verdict.classList.remove('doubted');
  part.figures.classList.toggle('stale', wrong);
  document.body.toggleAttribute('data-refused', wrong);
  if (wrong) file_view.fold(false);
  part.figures.hidden = wrong && functions.length === 0;
}

// The reader is guests and their host, over the board that is set up, or firmware, over the board at reset.
function be(whom) {
  as = whom === 'firmware' ? whom : 'guests';
  document.body.dataset.as = as;
  part.written.open = as === 'firmware' || innerWidth > NARROW;
  for (const one of part.as.querySelectorAll('input')) one.checked = one.value === as;
}

function show_text(text, whom = as) {
  be(whom);
  part.boards.value = Object.keys(BOARDS).find(name => BOARDS[name] === text) ?? '';
  part.boards.options[0].textContent = lessons.opening ? "the lesson's own" : 'a file of your own';
  file_view.put(text);
  set_up();
}

// Shows a board from a beginning on; some tasks don't show its lines.
function open_beginning(text, whom, from, shows) {
  show_text(text, whom);
  begin_from(from, shows);
}

function begin_from(from, shows = true) {
  beginning = from;
  shows_before = shows;
  script_console.prepare(from.lines, shows);
  if (as === 'firmware') firmware.look();
  if (from.state !== null) load(from.state);
  registers.forget();
  moments.forget();
  follow();
}

// Loads a state into the machine, which tells then who has which function; or tells why not, and then nothing has changed.
function load(state) {
  const number = state.image === null ? UNREADABLE : answers()?.load(state.image) ?? NO_BOARD;
  if (number !== 0) {
    beginning = { ...beginning, state: null };
    keeper.tell(why_not_loaded(number), true);
    script_console.put('refused', why_not_loaded(number));
    return;
  }
  owners = owners_in(answers(), functions);
  question.doubt();
  if (as === 'firmware') firmware.look();
  else guest_registers.open(functions, owners);
  draw();
  part.line.placeholder = first_line();
  script_console.put('before', 'The state of its guests came with the board');
}

// A guest that ran lines on another board is saved there and loaded into this machine. From there on one can go through lines.
function move_live(one) {
  const number = bring_guest(engine, machine, one);
  script_console.put('before', number === 0 ? `Guest ${one.guest} came from another board, with all that it held there` : `The guest can't be loaded (${number})`);
  beginning = { ...beginning, state: new State('', machine.save()) };
  registers.forget();
  moments.forget();
}

function open_task(text, whom, from, shows) {
  open_beginning(text, whom, from, shows);
  part.line.placeholder = functions.length > 0 ? `host cr ${functions[0].place} 0 4` : '';
}

// From the beginning on: that of the task, or else that of the board.
function start_again() {
  if (lessons.task !== null) { lessons.begin(lessons.task, lessons.part); return; }
  const from = beginning;
  set_up();
  begin_from(from);
}

function wire() {
  document.body.append(patterns());
  part.restart.addEventListener('click', start_again);
  part.as.addEventListener('change', event => { be(event.target.value); set_up(); });
  addEventListener('resize', follow);
  keep_what_is_left();
  wire_leads(part);
}

try {
  part.unstarted.remove();
  engine = await Engine.of(Uint8Array.from(atob(MODULE), one => one.charCodeAt(0)));
  wire();
  await new Opening(part, { still, show: show_text, open: open_beginning, play: (script, at_once) => script_console.play(script, at_once), lessons, tell: (...words) => keeper.tell(...words) }).begin();
} catch (wrong) {
  tell_unable(part.unable, wrong);
}
