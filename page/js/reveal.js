// Scrolling to what a reader asked for.

// Scrolls until an element is in view, and not behind the line box: the column, or the window where the column doesn't scroll.
export function reveal(one, { work, dock }) {
  one.scrollIntoView({ block: 'nearest' });
  for (const scrolled of [work, window]) {
    const { left, top, bottom } = one.getBoundingClientRect(), over = dock.getBoundingClientRect();
    if (left < over.right && over.bottom > 0) scrolled.scrollBy(0, Math.max(0, Math.min(bottom - over.top, top)));
  }
}
