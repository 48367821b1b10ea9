"""What is in view, and stays in place, while one does a lesson or drives a board, in any browser, for page/tests/browse: success beside the line
box, one area that scrolls, and bars in which every line of firmware moves something."""
from functools import partial

from tried import TOP, contains, equals, holds, lines_in

# What scrolls in the column of the lesson, except the board file, which is a text to edit.
SCROLLS = """[...document.querySelectorAll('#work, #work *')].filter(one => one.checkVisibility() && !one.matches('textarea, pre')
  && one.scrollHeight > one.clientHeight + 1 && /auto|scroll/.test(getComputedStyle(one).overflowY)).map(one => one.id || one.className)"""
# Where the tree and the bars begin, from the top of what scrolls.
TOPS = """['#tree', '[data-space=io]', '[data-space=mem]', '[data-space=pref]'].map(find => document.querySelector(`#shown ${find}`)).filter(one => one !== null)
  .map(one => Math.round(one.getBoundingClientRect().top + scrollY + document.getElementById('shown').scrollTop))"""
WHERE = "['.question', '#dock'].map(find => { const { top, bottom } = document.querySelector(find).getBoundingClientRect(); return [top, bottom]; })"
DRAWN = '#addresses .bars :is(.ghost, .region, .window)'
INSIDE = '#addresses [data-space=mem] .ghost:not(.beside) text'
SETTLED = 'new Promise(done => requestAnimationFrame(() => requestAnimationFrame(() => done(0))))'
BARS = "document.getElementById('addresses').innerHTML"
# Whether the marks beside the line box are those of the list, with the first condition that isn't met.
MARKS = """(() => { const rows = [...document.querySelectorAll('#goals li')], marks = [...document.querySelectorAll('#met .mark')], open = rows.find(one => !one.matches('.met'));
  return rows.length === marks.length && rows.every((one, nth) => one.matches('.met') === marks[nth].matches('.met')) && document.getElementById('met').textContent.endsWith(open?.lastChild.textContent ?? '✓'); })()"""


def is_write(line):
    return line.split()[1] in ('cw', 'iw', 'mw')


def success_is_in_view(browser, page, size, lessons):
    browser.open(page, *size)
    browser.run('localStorage.clear()')
    browser.open(f'{page}#lesson={lessons[0][0]}', *size)
    for nth, (name, lines) in enumerate(lessons):
        holds(f'the count of {name} is in view', browser.seen('#task_state') and 'met' in browser.text_of('task_state'), browser.text_of('task_state'))
        for line in lines:
            browser.type_line(line)
            holds(f'what is met in {name} after {line} is in view', browser.run(MARKS) and (browser.seen('#met') or browser.text_of('task_state').startswith('0')), browser.text_of('met'))
        equals(f'"Done." of {name} is in view', [browser.seen('#task_state'), browser.text_of('task_state')], [True, 'Done.'])
        holds(f'the line box of {name} is in view', browser.seen('#line'))
        if nth + 1 == len(lessons):
            break
        holds(f'"Next" of {name} is in view', browser.seen('#next'))
        browser.press_on('#next', 'Enter')
        browser.run(SETTLED)
        equals(f'by the keyboard the title behind {name} is in view', [browser.seen('#task_title'), browser.focused()], [True, 'task_title'])


def an_answer_is_in_view(browser, page, size):
    for link in ['lesson=window', 'lesson=number', 'board=main&as=firmware']:
        browser.open(f'{page}#{link}', *size)
        for line in ['host cr 00:02.0 0 4', 'host mr 0xc0000000 4'] * 3:
            browser.type_line(line)
            browser.run(SETTLED)
        for row in [5, 1]:
            browser.run(f"document.querySelectorAll('#transcript .row')[{row}].querySelector('button').click()")
            holds(f'the answer to "why?" in {link} is in view', browser.seen('#transcript .question'), browser.run(WHERE))


def one_area_scrolls(browser, page, size, lessons):
    is_narrow = size[0] < 961
    for name, lines in lessons:
        browser.open(f"{page}#lesson={name.split('/')[0]}", *size)
        browser.type_lines(lines)
        found = browser.run(SCROLLS)
        holds(f'one area scrolls in {name}', set(found) <= {'transcript' if is_narrow else 'work'}, found)
    height = browser.run('document.documentElement.scrollHeight')
    holds('the window scrolls only where it is narrow', height <= size[1] or is_narrow, height)


def every_line_moves_something(browser, page, size, lessons):
    blank, still, count = [], [], 0
    for name, lines in lessons:
        if name not in ('size', 'ready', 'wide'):
            continue
        browser.open(f'{page}#lesson={name}', *size)
        before = browser.run(BARS)
        for line in lines:
            browser.type_line(line)
            count, after = count + 1, browser.run(BARS)
            blank += [line] if browser.count_of(DRAWN) == 0 else []
            still += [line] if is_write(line) and after == before else []
            before = after
    holds('after each line of lessons 3, 6 and 9 something is drawn in the bars', blank == [] and count > 25, [count, blank])
    equals('each write of lessons 3, 6 and 9 moves something in the bars', still, [])
    print(f'nothing was drawn after {len(blank)} of {count} lines of lessons 3, 6 and 9, and nothing moved by {len(still)} writes')


def what_is_disabled_is_dashed(browser, page, size):
    browser.open(f'{page}#lesson=size', *size)
    beside = browser.texts_of('[data-space=mem] .ghost.beside title')
    told = [line.split('; ')[0] for one in beside for line in one.split('\n')]
    wanted = [f'{one}, disabled by Command' for one in ('00:02.0 mem window 0x0 to 0xfffff, 1 MB', '01:00.0 bar0 0x0 to 0x1ffff, 128 KB', '01:01.0 bar5 0x0 to 0xfff, 4 KB')]
    holds('what is below an aperture is drawn beside its bar', told == wanted, beside)
    browser.type_line('host cw 01:00.0 0x10 4 0xc0000000')
    equals('a region that is placed and disabled is drawn in dashes', browser.texts_of(INSIDE), ['01:00.0 bar0'])
    equals('as no region that answers', browser.count_of('#addresses .region'), 0)
    browser.type_line('host cw 01:00.0 4 2 2')
    drawn = browser.counts_of(*(f'#addresses [data-space=mem] {find}' for find in ['.region', '.ghost:not(.beside)', '.was-at']))
    equals('Command makes it a region at the same place', drawn, [1, 0, 0])
    browser.open(f'{page}#lesson=window', *size)
    browser.type_line('host cw 00:02.0 0x20 4 0xc000c000')
    holds('a window that Command disables is drawn in dashes', browser.texts_of(INSIDE) in (['mem window of 00:02.0'], ['of 00:02.0']), browser.texts_of(INSIDE))


GHOSTS = '#maps .ghost title'
MARKED = [f'#maps {find}' for find in ['.ghost', '.ghost.changed', '.joined', '.joined.changed', '.was-at']]


def what_a_guest_disables_is_dashed(browser, page, size):
    browser.open(f'{page}#board=main', *size)
    holds('what a guest never placed is not drawn', browser.texts_of(GHOSTS) == [] and 'Nothing is enabled' in browser.text_of('maps'), browser.texts_of(GHOSTS))
    browser.type_line('a cw 0 0x14 4 0x80000000')
    told = 'guest a, slot 0 bar1: 0x80000000 to 0x80000fff, 4 KB, disabled by Command'
    equals('what a guest placed and disabled is drawn in dashes', [browser.texts_of(GHOSTS), browser.counts_of(*MARKED)], [[told], [1, 1, 0, 0, 0]])
    contains('and the page still says how to enable it', browser.text_of('maps'), 'Nothing is enabled')
    browser.type_line('a cw 0 0x14 4 0x90000000')
    contains('it moves with its base', browser.texts_of(GHOSTS)[0], '0x90000000 to 0x90000fff')
    equals('and is marked', browser.counts_of(*MARKED), [1, 1, 0, 0, 1])
    contains('which is told', browser.text_of('changes'), 'disabled, 0x80000000 to 0x80000fff', 'disabled, 0x90000000 to 0x90000fff')
    browser.type_line('a cw 0 4 2 2')
    equals("the guest's Command makes it a region at the same place", browser.counts_of(*MARKED), [0, 0, 1, 1, 0])
    browser.type_line('a cw 0 4 2 0')
    equals('and back', browser.counts_of(*MARKED), [1, 1, 0, 0, 0])


def nothing_jumps(browser, page, size, lessons):
    scripts = [(f'lesson={name}', lines) for name, lines in lessons if '/' not in name] \
        + [('board=main&as=firmware', lines_in(TOP / 'boards/bridge.script')), ('board=server', lines_in(TOP / 'boards/server.script'))]
    worst = 0
    for link, lines in scripts:
        browser.open(f'{page}#{link}', *size)
        before = browser.run(TOPS)
        for line in [*lines, *lines[:1]]:
            browser.type_line(line)
            after = browser.run(TOPS)
            moved = max([abs(one - other) for one, other in zip(before, after)], default=0) if len(before) == len(after) else 999
            worst, before = max(worst, moved), after
            if moved > 0:
                holds(f'tree and bars of {link} stay after {line}', False, f'{moved} px')
        browser.press('F4')
        equals(f'and while one follows a cycle down the tree of {link}', browser.run(TOPS), before)
    holds('tree and bars stay where they are', worst == 0, f'{worst} px')
    print(f'tree and bars moved by up to {worst} pixels')


def checks_of(lessons):
    """What is asked at each size of the window, of the lessons with the lines that do them."""
    few = [one for one in lessons if one[0] in ('read', 'window', 'ready', 'neighbour', 'wide')]
    return [partial(success_is_in_view, lessons=lessons), an_answer_is_in_view, partial(one_area_scrolls, lessons=few), partial(every_line_moves_something, lessons=lessons),
            what_is_disabled_is_dashed, what_a_guest_disables_is_dashed, partial(nothing_jumps, lessons=lessons)]
