// Lines in bulk: several that are pasted into the line box, those of a script file, the lines that have run as a file, and lines that are taken back.

import { is_remark } from './changes.js';
import { save_as } from './keep.js';

export const is_script = name => name.endsWith('.script');

export class Scripts {
  // `page` has `console`, which runs lines, `steps`, which tells how many have run at the moment that is shown, and `start_again`.
  constructor(parts, page) {
    Object.assign(this, { page });
    parts.line.addEventListener('paste', event => {
      const text = event.clipboardData.getData('text');
      if (!text.trim().includes('\n')) return;
      event.preventDefault();
      this.run(text);
    });
    parts.undo.addEventListener('click', () => this.keep(page.console.said.findLastIndex(line => !is_remark(line))));
    parts.go_on.addEventListener('click', () => this.keep(page.steps.stops[page.steps.at] - page.console.prepared.length));
    parts.save_lines.addEventListener('click', () => save_as('lines.script', `${page.console.all_lines()}\n`, 'text/plain'));
  }

  run(text) { this.page.console.play(text.replaceAll('\r', ''), true); }

  // Starts again and runs the first of the reader's lines, so many; before them nothing is taken back.
  keep(count) {
    if (count < 0) return;
    const lines = this.page.console.said.slice(0, count);
    this.page.steps.to_now();
    this.page.start_again();
    this.run(lines.join('\n'));
  }
}
