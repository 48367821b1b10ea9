// A teacher's own task: the board that is shown and the lines that were run, with words and a goal, in a link or a file.

import { make } from './marks.js';
import { wrong_in_goal } from './goals.js';
import { fragment_of, is_too_long, kilobytes, link_of, PASTE, TOO_LONG } from './keep.js';

const MET_ALREADY = 'This goal holds on the board as it is now, so the task is done before anybody writes a line.';

export class TaskForm {
  // `parts` are its elements. `page` has `shown`, the board, whose lines one writes, the guests' names and what explains a line; and two beginnings: `with_lines`,
  // all lines that were run, and `as_it_is`, the state that they left; `is_met`, whether a goal holds now; and `save`, which keeps a file.
  constructor(parts, page) {
    Object.assign(this, { parts, page });
    parts.task_form.addEventListener('submit', event => { event.preventDefault(); this.hand_out(); });
    parts.own_goal.addEventListener('input', () => this.look());
    parts.own_file.addEventListener('click', async () => {
      const made = await this.made();
      if (made === null) return;
      this.page.save(made);
      this.parts.handed.textContent = `task.toml holds the task. *Open a file* begins it, on any copy of this page.${this.without_state(made)}`.replaceAll('*', '');
    });
  }

  // Tells what is wrong with the goal, or that it holds on the board that is shown, from which the task begins; whether it is fine.
  look() {
    const goal = this.parts.own_goal.value, wrong = wrong_in_goal(goal, this.page.shown()), told = wrong.length === 0 && this.page.is_met(goal) ? [MET_ALREADY] : wrong;
    this.parts.goal_wrong.replaceChildren(...told.map(one => make('li', '', one)));
    this.parts.own_goal.setAttribute('aria-invalid', wrong.length > 0);
    return wrong.length === 0;
  }

  // The board with its beginning, and the task; null where the goal is none.
  async made() {
    if (!this.look()) { this.parts.own_goal.focus(); return null; }
    const [title, text, goal] = ['own_title', 'own_text', 'own_goal'].map(name => this.parts[name].value), { page } = this;
    const begins = await (this.parts.own_state.checked ? page.as_it_is() : page.with_lines());
    return { ...begins, task: { title: title || 'A task', text, goal } };
  }

  without_state({ state }) {
    return this.parts.own_state.checked && state === null ? ' No guest has the board yet, so there is no state: the task begins with the lines.' : '';
  }

  async hand_out() {
    const made = await this.made();
    if (made === null) return;
    const { task, ...begins } = made, fragment = await fragment_of({ ...task, ...begins }, 'task');
    history.replaceState(null, '', `#${fragment}`);
    await navigator.clipboard?.writeText(link_of(fragment)).catch(() => {});
    this.parts.handed.textContent = [`The link is in the address of this page, and copied where the browser allows it.${PASTE}${this.without_state(made)}`,
      ...(is_too_long(fragment) ? [`It has ${kilobytes(fragment.length)}, and ${TOO_LONG}.`] : [])].join(' ');
  }
}
