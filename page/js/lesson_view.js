// The lessons as a row of numbers, and the task that one is at: its words, and what is done of its goal.

import { pictures_of_headers } from './header_view.js';
import { count_in_words } from './report.js';
import { make, make_button, put_text, sign } from './marks.js';

const LACKS_SHOWN = 4;
// How high a window is in which a lesson begins with its picture open.
const TALL = 800;
const NOTES = ['Show', 'Ask', 'The mistake that students make'];

// A text with code between backticks, and an empty line between paragraphs.
function paragraphs_of(text) {
  return text.trim().split(/\n\s*\n/).map(one => make('p', '', ...one.split('`').map((part, nth) => (nth % 2 === 1 ? make('code', '', part) : part))));
}

// Takes its room before it is seen, so that a lesson that is done moves nothing.
const tick_of = is_done => make('span', is_done ? '' : 'unticked', ' ✓');

export class LessonView {
  // `acts` has `begin`, which is given the number of a lesson and of its part, `again` and `leave`.
  constructor(parts, tasks, acts) {
    Object.assign(this, { parts, tasks, acts });
    parts.again.addEventListener('click', acts.again);
    parts.leave.addEventListener('click', acts.leave);
    parts.begin.addEventListener('click', () => acts.begin(Number(parts.begin.dataset.nth)));
    parts.next.addEventListener('click', () => acts.begin(Number(parts.next.dataset.nth), parts.next.dataset.part ? Number(parts.next.dataset.part) : undefined));
  }

  // The task is above the lines, and the board file below them; without a task the file is above.
  enter(is_entered) {
    document.body.classList.toggle('at-task', is_entered);
    this.parts.task.hidden = !is_entered;
    if (!is_entered) this.parts.next.hidden = true;
    if (is_entered) this.parts.editor.before(this.parts.desk);
    else this.parts.editor.after(this.parts.desk);
  }

  // The numbers of the lessons, with those that are done. The one that is open leads to its text.
  draw_steps(lessons) {
    const done = this.tasks.filter(one => lessons.is_done(one)).length;
    const kept = lessons.progress.keeps ? '' : '. This browser keeps nothing: what is done counts until the page is closed';
    this.parts.progress.textContent = `${done} of ${this.tasks.length} done${kept}`;
    this.parts.steps.replaceChildren(...this.tasks.map((task, nth) => {
      const is_done = lessons.is_done(task);
      const button = make_button(`${nth + 1}`, () => (task === lessons.task ? this.show() : this.acts.begin(nth)), '', `Lesson ${nth + 1}: ${task.title}${is_done ? ', done' : ''}`);
      button.append(make('span', 'title', ` ${task.title}`), tick_of(is_done));
      button.title = task.title;
      if (task === lessons.task) button.setAttribute('aria-current', 'step');
      return make('li', '', button);
    }));
    const open = Math.max(this.tasks.findIndex(task => !lessons.is_done(task)), 0);
    this.parts.begin.dataset.nth = open;
    this.parts.begin.textContent = open === 0 ? 'Begin lesson 1' : `Go on with lesson ${open + 1}`;
    this.draw_parts(lessons);
  }

  draw_parts(lessons) {
    const { task, part } = lessons, nth = this.tasks.indexOf(task), those = task === null ? [] : lessons.parts_of(task);
    this.parts.parts.hidden = those.length === 0;
    this.parts.parts.replaceChildren(...those.map((one, at) => {
      const button = make_button(one.title, () => this.acts.begin(nth, at), '', `${one.title}${one.done ? ', done' : ''}`);
      button.append(tick_of(one.done));
      if (at === part) button.setAttribute('aria-current', 'step');
      return make('li', '', button);
    }));
  }

  draw_task(lessons) {
    const { task, part } = lessons, nth = this.tasks.indexOf(task);
    this.parts.task_title.textContent = `${nth < 0 ? 'Task' : `Lesson ${nth + 1}`}: ${task.title}${task.parts ? `, ${task.parts[part].title}` : ''}`;
    this.parts.task_text.replaceChildren(...paragraphs_of(task.text));
    const { headers } = this.parts, has_headers = task.headers === true;
    headers.hidden = !has_headers;
    for (const one of headers.querySelectorAll('table')) one.remove();
    if (has_headers) headers.append(...pictures_of_headers());
    headers.open = innerHeight > TALL;
    this.parts.hint.hidden = task.hint === '';
    this.parts.hint.open = false;
    this.parts.hint_text.replaceChildren(...(task.hint ? paragraphs_of(task.hint) : []));
    this.parts.notes.replaceChildren(...(task.notes ?? []).flatMap((text, at) => [make('strong', '', NOTES[at]), ...paragraphs_of(text)]));
    this.draw_steps(lessons);
  }

  // Each condition with whether it holds, and what is wrong or lacking where the goal asks for that.
  draw_goal(lessons, rows, done) {
    this.parts.goals.replaceChildren(...rows.map(({ words, met }) => make('li', met ? 'met' : '', ...(met ? sign('✓', 'done: ') : sign('○', 'not yet: ')), words)));
    const { lacks } = lessons.goals, more = lacks.length > LACKS_SHOWN ? [`${lacks.length - LACKS_SHOWN} more`] : [];
    this.parts.lacks.replaceChildren(...[...lacks.slice(0, LACKS_SHOWN), ...more].map(one => make('li', '', one)));
    this.parts.lacks.hidden = !lessons.goals.wants_ready;
    this.draw_marks(rows);
    const state = done ? 'Done.' : `${rows.filter(one => one.met).length} of ${count_in_words(rows.length, 'condition')} met`;
    Object.assign(this, { state, done });
    this.tell_state(false);
    if (done) this.draw_steps(lessons);
    this.offer_next(lessons, done);
  }

  // How far the lesson is, which isn't said of an earlier moment that is shown.
  tell_state(is_past) {
    put_text(this.parts.task_state, is_past ? 'An earlier moment' : this.state);
    for (const one of [this.parts.task, this.parts.dock]) one.classList.toggle('done', this.done && !is_past);
  }

  // Beside the line box, once a condition is met: a mark for each one in the order of the list, and the first that isn't met.
  draw_marks(rows) {
    const open = rows.find(one => !one.met);
    this.parts.met.hidden = !rows.some(one => one.met);
    this.parts.met.replaceChildren(...rows.map(({ words, met }) => {
      const [mark] = sign(met ? '✓' : '○', '');
      mark.classList.toggle('met', met);
      return Object.assign(mark, { title: words });
    }), open ? `Not yet: ${open.words}` : '');
  }

  // The next part that isn't done, or the next lesson.
  offer_next(lessons, done) {
    const nth = this.tasks.indexOf(lessons.task), part = nth < 0 ? -1 : lessons.parts_of(lessons.task).findIndex(one => !one.done);
    const { next } = this.parts, last = part < 0 && nth === this.tasks.length - 1;
    next.hidden = !done || nth < 0 || last;
    next.dataset.nth = part < 0 ? nth + 1 : nth;
    next.dataset.part = part < 0 ? '' : part;
    next.textContent = part < 0 ? 'Next lesson' : `Next: ${lessons.task.parts[part].title}`;
  }

  close(told) {
    this.parts.progress.textContent += told;
    this.enter(false);
  }

  // Leads to the task that was begun, from wherever one was.
  show() {
    this.parts.task_title.focus({ preventScroll: true });
    this.parts.work.scrollTop = 0;
    this.parts.lessons.scrollIntoView({ block: 'start' });
  }
}
