// Judges a link that a student hands in, outside of a browser: its lines run again on the board of the lesson, whatever board is in the link.

import { asked_of } from './asked.js';
import { AtReset, decodes_of } from './at_reset.js';
import { Engine } from './engine.js';
import { Goals } from './goals.js';
import { kept_in } from './keep.js';
import { bring_guest } from './replay.js';
import { report_in, read_json } from './report.js';
import { read_task } from './task.js';

const to_bytes = text => new TextEncoder().encode(text);
const lines_of_script = script => script.split('\n').filter(line => line.trim() !== '');

// A board as its reader has it: what answers lines, and the functions and findings as they are now.
function board_of(engine, { board, as, elsewhere }) {
  const file = to_bytes(board), report = engine.report_json(file), machine = report.number === 0 ? engine.open(file).made : null;
  const functions = machine === null ? [] : report_in(read_json(new TextDecoder().decode(report.text))).functions;
  if (as !== 'firmware') return { held: machine, elsewhere, look: () => {}, functions: () => functions, lacks: () => [] };
  const held = engine.open_at_reset(file).made, bridges = functions.filter(one => one.kind === 'bridge');
  const now = new AtReset(held, functions, new Map(bridges.map(one => [one.path, decodes_of(machine, one.place)])));
  return { held, look: () => now.look(), functions: () => (now.functions.length > 0 ? now.functions : functions), lacks: () => [...now.problems, ...now.lacks ?? []] };
}

// Runs all lines, and gives the conditions with whether they are met.
function conditions_after(engine, task, lines, before) {
  const board = board_of(engine, task), goals = new Goals(task.goal, task.as);
  if (board.held === null) return [];
  for (const line of lines_of_script(before)) asked_of(board.held, line);
  if (task.state?.image) board.held.load(task.state.image);
  if (task.elsewhere) bring_guest(engine, board.held, task.elsewhere);
  board.look();
  for (const line of lines) {
    const reply = asked_of(board.held, line);
    goals.hear(line, reply, board.held, { lacks: board.lacks, functions: board.functions() });
    board.look();
  }
  return goals.look(board.held, board.lacks);
}

// A row: the name, the lesson, whether it is done, how many conditions are met, and those that aren't.
export async function judged(link, module, tasks) {
  const kept = await kept_in(/#kept=([\w.-]+)/.exec(link)?.[1] ?? '');
  if (kept === null) return ['', '', 'no', '', `not a link of the page: ${link.slice(0, 60)}`];
  const nth = tasks.findIndex(one => one.name === kept.task?.name), task = nth >= 0 ? tasks[nth] : read_task(kept.task);
  if (task === null) return [kept.by, '', 'no', '', 'the link has no lesson'];
  const part = task.parts?.[kept.task.part], name = nth < 0 ? `task of the link: ${task.title}` : `${nth + 1} ${task.title}${part ? `, ${part.title}` : ''}`;
  const rows = conditions_after(await Engine.of(module), task, lines_of_script(kept.script), (part ?? task).lines), open = rows.filter(one => !one.met);
  const is_done = rows.length > 0 && open.length === 0;
  return [kept.by, name, is_done ? 'yes' : 'no', `${rows.length - open.length} of ${rows.length}`, open.map(one => one.words).join('; ')].map(one => one.replace(/[\t\r\n]/g, ' '));
}
