// What is shown: what the address asks for, what the browser kept, a board of the page, or a story.

import { kept, kept_in, task_in } from './keep.js';
import { make_button } from './marks.js';

const wanted = () => new URLSearchParams(location.hash.slice(1));

const KNOWN = ['board', 'as', 'lesson', 'part', 'story', 'now', 'task', 'kept'];

// What the address asks for and this page doesn't have, in words, or null. The name of a part of the page asks for nothing.
function unknown_in(asked) {
  const names = { story: STORIES.map(one => one.title), lesson: TASKS.map(one => one.name), board: Object.keys(BOARDS) };
  for (const [key, value] of asked) {
    if (names[key] && !names[key].includes(value)) return `This page has no ${key} "${value}". It has: ${names[key].join(', ')}.`;
    if (!KNOWN.includes(key) && document.getElementById(key) === null) {
      return `This page doesn't know #${key}=. An address may ask for #board=, #lesson=, #story=, #task= or #kept=.`;
    }
  }
  return null;
}

export class Opening {
  // `page` has `show`, which shows a text as somebody's board; `open`, which does so from a beginning on; `play`, which runs a script, at once or
  // line by line; `lessons`; and `tell`, of what can't be shown. `still` tells that nothing may move by itself.
  constructor(parts, page) {
    Object.assign(this, { parts, page });
    parts.boards.append(new Option('', ''), ...Object.keys(BOARDS).map(name => new Option(name)));
    parts.boards.addEventListener('change', () => { if (parts.boards.value !== '') page.show(BOARDS[parts.boards.value]); });
    parts.stories.querySelector('.bar').append(...STORIES.map(story => make_button(story.title, () => this.tell_story(story))));
    addEventListener('hashchange', () => { if (/^#\w+=/.test(location.hash)) this.begin(); });
  }

  tell_story({ board, as, script, shows }) {
    this.page.show(BOARDS[board], as);
    this.page.play(script, this.page.still || wanted().has('now'));
    if (shows) this.parts[shows].scrollIntoView({ block: 'center' });
  }

  // What the address asks for, else what the browser kept, else the first board.
  async begin() {
    const { show, open, play, lessons, tell } = this.page, asked = wanted(), unknown = unknown_in(asked);
    const before = asked.has('kept') ? await kept_in(asked.get('kept')) : asked.size > 0 ? null : await kept();
    if (unknown !== null) { show(BOARDS[Object.keys(BOARDS)[0]], asked.get('as')); tell(unknown, true); return; }
    if (asked.has('story')) { this.tell_story(STORIES.find(one => one.title === asked.get('story'))); return; }
    if (asked.has('lesson') && lessons.begin_by_name(asked.get('lesson'), Number(asked.get('part')) - 1)) return;
    if (asked.has('task') && lessons.take_up(await task_in(asked.get('task')))) return;
    if (before) {
      const of_link = asked.has('kept') || before.of_link;
      if (!before.task || !lessons.take_up(before.task, of_link)) open(before.board, before.as, before.from);
      play(before.script, true);
      if (asked.has('kept')) tell(`These are the lines of ${before.by || 'a link'}.${before.task ? " Your own progress stays as it is." : ''}`);
      return;
    }
    show(BOARDS[asked.get('board') ?? Object.keys(BOARDS)[0]] ?? '', asked.get('as'));
    if (asked.has('kept') || asked.has('task')) tell('The link is cut off, or was changed on its way, so it can\'t be opened. The board below is another one.', true);
  }
}
