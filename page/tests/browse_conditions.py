"""Each condition of each lesson, in any browser, for page/tests/browse: it isn't met by lines that only look like the one that it asks for, as reads of
another function, of another place, or of a part of it; and it is met in other widths and spellings."""
import json
import re

from tried import equals, holds

# Runs lines as a reader does, and gives which conditions are met after each.
RUNS = """(async () => {
  const found = [], line = document.getElementById('line');
  for (const one of %s) {
    line.value = one;
    document.getElementById('entry').requestSubmit();
    await new Promise(done => setTimeout(done));
    found.push([...document.querySelectorAll('#goals li')].map(row => row.className === 'met'));
  }
  return found;
})()"""
NUMBER = re.compile(r'0x[0-9a-fA-F]+|(?<= )\d+(?= |$)')


def met_after(browser, lines):
    return browser.run(RUNS % json.dumps(lines))


def astray(line):
    """Five lines that look like one: at a function or a slot that isn't there, at another one, elsewhere in it, of one byte of it, and no access at all."""
    who, verb, *rest = line.split()
    if verb not in ('cr', 'mr', 'ir', 'cw', 'mw', 'iw'):
        return [f'{who} cr 00:1e.0 0 4', 'host cr 00:02.0 0 4', 'host mr 0x10 4', 'host ir 0x10 4', '# ' + line]
    verb, where = verb[0] + 'r', rest[:-3] if verb[1] == 'w' and verb != 'cw' else rest[:1]
    if verb == 'cr':
        gone, other = ('00:1d.0', '00:01.0' if where[0] == '00:02.0' else '00:02.0') if ':' in where[0] else ('29', '1')
        return [f'{who} cr {gone} {rest[1]} {rest[2]}', f'{who} cr {other} {rest[1]} {rest[2]}', f'{who} cr {where[0]} 0x3c 4', f'{who} cr {where[0]} {rest[1]} 3', '# ' + line]
    return [f'{who} {verb} 0x70000000 4', f'{who} {verb} 0xfffffffc 4', f'{who} {verb} 0x70000000 1', f'{who} cr 29 0 4' if who != 'host' else 'host cr 00:1d.0 0 4', '# ' + line]


def in_decimal(line):
    return line if line.startswith('#') else NUMBER.sub(lambda found: str(int(found[0], 0)), line)


def in_halves(line):
    """An access as two of half the width."""
    words = line.split()
    if len(words) < 4 or words[1] not in ('cr', 'cw', 'mr', 'mw', 'ir', 'iw') or words[1] == 'iw':
        return [line]
    at = 3 if words[1][0] == 'c' else 2
    first, width, value = int(words[at], 0), int(words[at + 1]), [int(word, 0) for word in words[at + 2:]]
    if width == 1:
        return [line]
    half = width // 2
    return [' '.join([*words[:at], hex(first + nth * half), str(half), *(hex(one >> 8 * half * nth & (1 << 8 * half) - 1) for one in value)]) for nth in range(2)]


def widened(line):
    """A read as one of four bytes."""
    words = line.split()
    if words[1] not in ('cr', 'mr'):
        return line
    at = 3 if words[1] == 'cr' else 2
    return ' '.join([*words[:at], hex(int(words[at], 0) & ~3), '4'])


def conditions_are_met_by_their_lines(browser, name, lines):
    met = met_after(browser, lines)
    holds(f'{name} is done by its lines', all(met[-1]), met[-1])
    ways = [[in_decimal(line) for line in lines], [half for line in lines for half in in_halves(line)], [widened(line) for line in lines]]
    for what, way in zip(['in decimal numbers', 'in halves', 'in reads of four bytes'], ways):
        browser.click('#again')
        found = met_after(browser, way)
        equals(f'{name} is done {what}', found[-1], [True] * len(met[-1]))
    return met


def conditions_are_not_fooled(browser, name, lines, met):
    browser.click('#again')
    before = [row == 'met' for row in browser.run("[...document.querySelectorAll('#goals li')].map(row => row.className)")]
    for nth, line in enumerate(lines):
        fresh = [at for at, is_met in enumerate(met[nth]) if is_met and not (met[nth - 1] if nth else before)[at]]
        if fresh:
            found = met_after(browser, astray(line))
            wrong = [other for other, rows in zip(astray(line), found) if any(rows[at] for at in fresh)]
            holds(f'in {name} nothing but what it asks for meets condition {[at + 1 for at in fresh]}', wrong == [], wrong)
        met_after(browser, [line])


# Lines whose reply is the right one, by a place that isn't, each before anything else of the lesson.
FOOLED = {'wide': ['host cr 01:05.0 0 4', 'host cr 01:05.0 0x1c 4', 'host mr 0 4'], 'neighbour': ['host guests', 'store cr 5 0 4'], 'twins': ['host cr 02:00.0 0 4'],
          'move': ['host move web 0 store 2', 'store cr 0 0x10 4', 'store cr 0 4 2', 'store cr 7 0x10 4'], 'number': ['host cr 00:05.0 0 4', 'host mr 0 4']}


def right_replies_from_elsewhere_count_for_nothing(browser, page, names):
    for name, lines in FOOLED.items():
        browser.open(f'{page}#{names[name]}')
        kinds = [line.startswith('you: ') for line in GOALS[name]]
        found = met_after(browser, lines)[-1]
        holds(f'in {name} a right reply from elsewhere meets nothing', not any(met and deed for met, deed in zip(found, kinds)), found)


GOALS = {}


def checks_of(lessons, tasks):
    """Checks of all lessons, each with its name, its link, and lines that do it."""
    GOALS.update({task['name']: task['goal'].strip().splitlines() for task in tasks})

    def all_conditions(browser, page):
        for name, link, lines in lessons:
            browser.open(f'{page}#{link}')
            met = conditions_are_met_by_their_lines(browser, name, lines)
            conditions_are_not_fooled(browser, name, lines, met)
        right_replies_from_elsewhere_count_for_nothing(browser, page, {name: link for name, link, _ in lessons})
        browser.run("localStorage.clear()")
    return [all_conditions]
