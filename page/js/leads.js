// Buttons and a key that lead from one part of the page to another.

// Brings a part into view, with the keys where it is the box for lines.
function lead_to(to) {
  if (to.id === 'line') to.focus({ preventScroll: true });
  to.scrollIntoView({ block: to.id === 'line' ? 'center' : 'start' });
}

export function wire_leads(part) {
  for (const button of part.jump.querySelectorAll('button')) {
    button.addEventListener('click', () => {
      if (button.dataset.to === 'chosen') part.written.open = true;
      lead_to(part[button.dataset.to]);
    });
  }
  for (const [name, to] of [['to_line', part.line], ['back_to_line', part.line], ['to_moment', part.moment]]) part[name].addEventListener('click', () => lead_to(to));
  addEventListener('keydown', event => { if (event.key === 'F2') { event.preventDefault(); lead_to(part.line); } });
}
