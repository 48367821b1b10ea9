// Tasks: each a board, a state and a goal. The lessons are in the page, and a link may bring another one.

import { Goals } from './goals.js';
import { LessonView } from './lesson_view.js';
import { read_task } from './task.js';

// Which tasks are done, kept in the browser; where it keeps nothing, as some do for files, as long as the page is open.
const PROGRESS_KEY = 'pciguest-lessons';

class Progress {
  constructor() {
    this.keeps = true;
    try {
      const found = JSON.parse(localStorage.getItem(PROGRESS_KEY) ?? '[]');
      this.done = new Set(Array.isArray(found) ? found.filter(one => typeof one === 'string') : []);
      localStorage.setItem(PROGRESS_KEY, JSON.stringify([...this.done]));
    } catch { this.done ??= new Set(); this.keeps = false; }
  }

  has(name) { return this.done.has(name); }

  add(name) {
    this.done.add(name);
    try { localStorage.setItem(PROGRESS_KEY, JSON.stringify([...this.done])); } catch { this.keeps = false; }
  }
}

export class Lessons {
  // `tasks` are those of the page. `page` has `open`, which shows a board as somebody from a beginning on; `held`, which
  // gives what answers lines; `guests`, their names; `move_live`, which loads a guest of another board; `lacks`, the problems and the lacks of the board's registers;
  // and `functions`, with their numbers as they are now.
  constructor(parts, tasks, page) {
    Object.assign(this, { tasks, page, progress: new Progress(), task: null, part: 0, goals: null, key: '', opening: false, of_link: false });
    this.view = new LessonView(parts, tasks, {
      begin: (nth, part) => this.begin_lesson(nth, part), again: () => this.begin(this.task, this.part), leave: () => { this.leave(''); page.left(); },
    });
    this.view.enter(false);
    this.view.draw_steps(this);
  }

  key_of(task, part) { return task.parts ? `${task.name}/${task.parts[part].name}` : task.name; }

  is_done(task) { return task.parts ? task.parts.every((_, part) => this.progress.has(this.key_of(task, part))) : this.progress.has(task.name); }

  // The parts of a task, with whether they are done.
  parts_of(task) { return (task.parts ?? []).map((part, nth) => ({ ...part, done: this.progress.has(this.key_of(task, nth)) })); }

  // A lesson of the page; of one with parts, the part that is asked for, or else the first that isn't done.
  begin_lesson(nth, part) {
    const task = this.tasks[nth], open = this.parts_of(task).findIndex(one => !one.done);
    this.begin(task, task.parts?.[part] ? part : Math.max(open, 0));
    this.view.show();
  }

  begin_by_name(name, part) {
    const nth = this.tasks.findIndex(one => one.name === name);
    if (nth >= 0) this.begin_lesson(nth, part);
    return nth >= 0;
  }

  // A task from its beginning. One of a link has no name, and its being done isn't kept; nor is that of a lesson whose lines came by a link, of somebody else.
  begin(task, part = 0, of_link = false) {
    const of = task.parts?.[part] ?? task;
    this.opening = true;
    this.view.enter(true);
    this.page.open(task.board, task.as, { lines: of.lines, state: task.state ?? null }, task.parts === undefined);
    if (task.elsewhere) this.page.move_live(task.elsewhere);
    this.opening = false;
    Object.assign(this, { task, part, of_link, key: task.name ? this.key_of(task, part) : '', goals: new Goals(task.goal, task.as) });
    this.view.draw_task(this);
    this.look();
  }

  // Another board, or another reader, ends the task, which is told.
  leave(told = '. The board was set up again, which ended the lesson') {
    if (this.opening || this.task === null) return;
    Object.assign(this, { task: null, goals: null, key: '' });
    this.view.draw_steps(this);
    this.view.close(told);
  }

  // Whether a goal of somebody's holds on the board as it is.
  is_met(goal, as) {
    const held = this.page.held();
    return held !== null && new Goals(goal, as).look(held, () => this.page.lacks()).every(one => one.met);
  }

  hear(line, reply) { if (!this.opening) this.goals?.hear(line, reply, this.page.held(), { lacks: () => this.page.lacks(), functions: this.page.functions() }); }

  // After lines that ran: what is done of the goal.
  look() {
    const held = this.page.held();
    if (this.goals === null || held === null) return;
    const rows = this.goals.look(held, () => this.page.lacks()), done = rows.length > 0 && rows.every(one => one.met);
    if (done && this.key !== '' && !this.of_link && !this.progress.has(this.key)) this.progress.add(this.key);
    this.view.draw_goal(this, rows, done);
  }

  // An earlier moment is shown, or the present one again.
  stand(is_past) { if (this.goals !== null) this.view.tell_state(is_past); }

  // What is kept with the board and the script: the name of a lesson and its part, or a task of a link.
  kept() {
    if (this.task === null) return undefined;
    return this.task.name ? { name: this.task.name, part: this.part } : this.task;
  }

  // Takes up what was kept; whether it was a task.
  take_up(found, of_link = false) {
    const nth = this.tasks.findIndex(one => one.name === found?.name), task = nth >= 0 ? this.tasks[nth] : read_task(found);
    if (task === null) return false;
    this.begin(task, task.parts?.[found.part] ? found.part : 0, of_link);
    return true;
  }
}
