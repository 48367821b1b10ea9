"""The lessons of the page and its views of registers and lines, used in any browser as a reader does, for page/tests/browse."""
import shutil
import tomllib

import browse_boards
import browse_conditions
import browse_firmware
import browse_hand_in
import browse_lecture
import browse_names
import browse_newcomer
import browse_page
import browse_ready
import browse_robust
import browse_screens
import browse_scripts
import browse_sight
import browse_state
import browse_why
from reader import FIELD
from tried import BITS, LOOKS, PAGE, WINDOW, answers, at_each_size, begins, contains, ends, equals, holds, is_painted_well, nothing_is_cut

TASKS = tomllib.loads((PAGE / 'tasks.toml').read_text())['task']

# What a reader may type in each lesson, or in each part of one.
SOLUTIONS = {
    'read': ['host cr 01:00.0 0 4', 'host cr 00:02.0 0x18 4', 'host cr 00:02.0 0x20 4', 'host mr 0xc0000000 4'],
    'number': ['host cr 01:00.0 0 4', 'host cw 00:02.0 0x19 1 5', 'host cw 00:02.0 0x1a 1 5', 'host cr 05:00.0 0 4'],
    'size': ['host cw 01:00.0 0x10 4 0xffffffff', 'host cr 01:00.0 0x10 4', 'host cw 01:00.0 0x14 4 0xffffffff', 'host cr 01:00.0 0x14 4',
             'host cw 01:01.0 0x24 4 0xffffffff', 'host cr 01:01.0 0x24 4', 'host cw 01:00.0 0x10 4 0xc0000000', 'host cw 01:01.0 0x24 4 0xc0020000'],
    'window': WINDOW,
    'wrong/limit_short': ['host cw 00:02.0 0x22 2 0xc030'],
    'wrong/shared_unit': ['host cw 00:03.0 0x20 2 0xc040'],
    'wrong/subordinate_ff': ['host cw 00:02.0 0x1a 1 2'],
    'wrong/subordinate_low': ['host cw 00:02.0 0x1a 1 2'],
    'wrong/same_secondary': ['host cw 00:03.0 0x18 4 0x00030300'],
    'wrong/command_closed': ['host cw 00:02.0 4 2 3'],
    'wrong/base_moved': ['host cw 02:00.0 0x10 4 0xc0000000'],
    'wrong/half_base': ['host cw 01:00.0 0x18 4 0', 'host cw 01:00.0 0x1c 4 4'],
    'ready': ['host cw 00:02.0 0x18 4 0x00010100', 'host cw 01:00.0 0x10 4 0xc0000000', 'host cw 01:00.0 0x14 4 0x1000', 'host cw 01:01.0 0x24 4 0xc0020000',
              'host cw 00:01.0 0x10 4 0x2000', 'host cw 00:02.0 0x20 4 0xc000c000', 'host cw 00:02.0 0x1c 2 0x1010', 'host cw 00:02.0 4 2 3',
              'host cw 01:00.0 4 2 3', 'host cw 01:01.0 4 2 2', 'host cw 00:01.0 4 2 1'],
    'neighbour': ['host guests', 'web cw 0 0x10 4 0x80000000', 'web cw 0 4 2 2', 'web mw 0x80000010 4 0x600d600d', 'store mr 0x80000010 4', 'store cw 0 0x24 4 0x80000000', 'store cw 0 4 2 2', 'store mw 0x80000010 4 0x0bad0bad'],
    'wide': ['host cw 01:00.0 0x18 4 0xffffffff', 'host cw 01:00.0 0x1c 4 0xffffffff', 'host cr 01:00.0 0x18 4', 'host cr 01:00.0 0x1c 4', 'host cw 01:00.0 0x18 4 0',
             'host cw 01:00.0 0x1c 4 4', 'host cw 00:02.0 0x20 4 0x0000fff0', 'host cw 00:02.0 0x24 4 0x00f00000', 'host cw 00:02.0 0x28 4 4', 'host cw 00:02.0 0x2c 4 4', 'host cw 00:02.0 4 2 2', 'host cw 01:00.0 4 2 2'],
    'twins': ['host cr 01:00.0 0 4', 'host cw 00:03.0 0x18 4 0x00020200', 'host cr 02:00.0 0 4'],
    'live': ['web cr 0 0x10 4', 'web cr 0 4 2', 'web mr 0x80000010 4', 'host mr 0xc0000010 4', 'host move web 0 store 2', 'store cr 2 0x10 4'],
    'capabilities': ['host cr 01:00.0 6 2', 'host cr 01:00.0 0x34 1', 'host cr 01:00.0 0xc8 2', 'host cr 01:00.0 0xd0 2', 'host cr 01:00.0 0xa0 2', 'host cr 01:00.0 0xa4 4', 'host mr 0xc002000c 4'],
    'move': ['host move web 0 store 2', 'store cr 2 0x10 4', 'store cr 2 4 2', 'store cw 2 0x10 4 0x90000000', 'store cw 2 4 2 2', 'store mr 0x90000010 4',
             'host mr 0xc0000010 4'],
}
# What has the reply that a condition wants, before what stands above it holds: each line's reply counts for nothing.
EARLY = {'neighbour': ['host guests', 'store cr 5 0 4'], 'move': ['store cr 0 0x10 4', 'store cr 0 4 2', 'host mr 0xc0000000 4']}
# What mends nothing: closing what is wrong.
CLOSED = {'wrong/limit_short': ['host cw 01:00.0 4 2 0'], 'wrong/base_moved': ['host cw 02:00.0 4 2 0']}

FORGET = "localStorage.removeItem('pciguest-lessons')"


def parts_of(task):
    """The names and links of a lesson, or of each part of one."""
    name = task['name']
    if 'parts' not in task:
        return [(name, f'lesson={name}')]
    return [(f'{name}/{part}', f'lesson={name}&part={nth}') for nth, part in enumerate(task['parts'], 1)]


def links_with_lines():
    """Each lesson, or each part of one: its name, its link, and lines that do it."""
    return [(name, link, SOLUTIONS[name]) for task in TASKS for name, link in parts_of(task)]


def lessons_are_done(browser, page):
    browser.open(page)
    browser.run(FORGET)
    for task in TASKS:
        for name, link in parts_of(task):
            browser.open(f'{page}#{link}')
            holds(f'{name} is not done at first', browser.text_of('task_state') != 'Done.', browser.text_of('task_state'))
            browser.type_lines(CLOSED.get(name, []))
            holds(f'{name} is not done by closing', browser.text_of('task_state') != 'Done.', browser.text_of('task_state'))
            for line in SOLUTIONS[name]:
                holds(f'{name} is not done before {line}', browser.text_of('task_state') != 'Done.' or line == SOLUTIONS[name][-1] and name == 'wrong/half_base')
                browser.type_line(line)
            if name in CLOSED:
                browser.type_line(CLOSED[name][0][:-1] + '2')
            holds(f'{name} is done', browser.text_of('task_state') == 'Done.', browser.text_of('goals') + browser.text_of('lacks'))
    all_done = f'{len(TASKS)} of {len(TASKS)} done'
    equals('all lessons are done', browser.text_of('progress'), all_done)
    browser.open(page)
    equals('the browser keeps what is done', browser.text_of('progress'), all_done)
    browser.run(FORGET)


MET = "[...document.querySelectorAll('#goals li')].map(one => one.className)"


def a_reply_counts_in_its_place(browser, page):
    for name, wanted in [('neighbour', ['met', '', '', '', '']), ('move', [''] * 7)]:
        browser.open(f'{page}#lesson={name}')
        browser.type_lines(EARLY[name])
        equals(f'in {name} a reply before what stands above it counts for nothing', browser.run(MET), wanted)
    browser.type_lines(['host move web 0 store 2', 'store cr 2 0x10 4'])
    equals('and after it counts', browser.run(MET), ['met', 'met', 'met', '', '', '', ''])
    browser.run(FORGET)


def a_lesson_leads_on(browser, page):
    browser.open(f'{page}#board=main')
    browser.run(FORGET)
    browser.open(page)
    browser.click('#steps button')
    equals('a number begins its lesson', browser.text_of('task_title'), 'Lesson 1: Read a board')
    equals('the lesson has the keys', browser.focused(), 'task_title')
    browser.click('#to_line')
    equals('a button leads to the box for lines', browser.focused(), 'line')
    browser.type_lines(SOLUTIONS['read'][:2])
    equals('what is met is marked', browser.run(MET), ['met', 'met', '', ''])
    browser.click('#steps button')
    equals('its number leads to its text, and begins nothing', [browser.text_of('task_state'), browser.focused()], ['2 of 4 conditions met', 'task_title'])
    browser.open(page)
    equals('a lesson that was begun comes back', [browser.text_of('task_title'), browser.text_of('task_state')], ['Lesson 1: Read a board', '2 of 4 conditions met'])
    browser.type_lines(SOLUTIONS['read'][2:])
    browser.click('#next')
    equals('the next lesson is offered', browser.text_of('task_title'), 'Lesson 2: Number a bridge by hand')
    browser.type_line(SOLUTIONS['number'][0])
    browser.click('#again')
    equals('a lesson begins again', [browser.text_of('task_state'), browser.text_of('transcript')], ['0 of 3 conditions met', ''])
    browser.click('#leave')
    equals('one can leave', [browser.is_shown('task'), browser.is_shown('stories')], [False, True])
    browser.open(f'{page}#lesson=window')
    browser.focus('#board')
    browser.insert('# ')
    browser.run("document.getElementById('board').blur()")
    equals('another board ends the lesson', browser.is_shown('task'), False)
    ends('which is told', browser.text_of('progress'), 'which ended the lesson')
    browser.open(f'{page}#lesson=wrong&part=1')
    browser.type_line(SOLUTIONS['wrong/limit_short'][0])
    browser.click('#next')
    ends('the next part is offered', browser.text_of('task_title'), 'Firmware 2')
    browser.run("document.querySelectorAll('#steps button')[4].click()")
    ends('a lesson goes on with what is not done', browser.text_of('task_title'), 'Firmware 2')
    browser.open(f'{page}#lesson=nothing')
    equals('a lesson that is none is no lesson', browser.is_shown('task'), False)
    browser.run(FORGET)


def a_teacher_hands_out(browser, page):
    browser.open(f'{page}#board=main&as=firmware')
    browser.type_line('host cw 00:02.0 0x18 4 0x00010100')
    browser.run("document.getElementById('own').open = true")
    for wrong, why in [('host cr 01:00.0 0 -> host: 0x1', "missing width (expected 'cr FUNCTION OFFSET WIDTH')"), ('host cw 01:00.0 4 2 2 -> host: ok', 'has to be a read'),
                       ('everything', 'write ready'), ('', 'a goal has at least one condition'),
                       ('host cr 01:00.0 0 2 -> host: 0x00000001', 'no read of 2 bytes returns this'), ('host cr 00:02.0 0 4 -> host: 0x00021234', 'holds on the board as it is now')]:
        browser.write('own_goal', wrong)
        contains(f'the goal {wrong!r} is refused', browser.text_of('goal_wrong'), why)
    link = browser.task_link('Place it', 'Give `01:00.0` a base.', 'host cr 01:00.0 0x10 4 -> host: 0xc0000000  # It has a base\naudit: ok')
    browser.open(f'{page}#board=server')
    browser.open_task(link)
    equals('a link brings a task', browser.text_of('task_title'), 'Task: Place it')
    equals('with its goal', browser.run("[...document.querySelectorAll('#goals li')].map(one => one.lastChild.textContent)"), ['It has a base', 'The audit says ok'])
    begins('with its lines', browser.text_of('transcript'), '1 line ran before')
    browser.type_line('host cw 01:00.0 0x10 4 0xc0000000')
    equals('the task is done', browser.text_of('task_state'), 'Done.')
    browser.write('own_goal', 'audit: ok')
    browser.run("location.hash = ''")
    browser.open_task(browser.handed_link())
    begins('a task made of a task has the lines of both', browser.text_of('transcript'), '2 lines ran before')
    browser.open_task(link)
    browser.type_line('host cw 01:00.0 0x10 4 0xc0000000')
    browser.open_task(page)
    equals('the task comes back', browser.text_of('task_state'), 'Done.')
    browser.click('#leave')


INVALID = "document.getElementById('line').getAttribute('aria-invalid')"


def lines_are_explained(browser, page):
    browser.open(f'{page}#board=main')
    for text, why, wrong in [('a mr 0x1000', "missing width (expected 'mr ADDRESS WIDTH')", False), ('c cr 0 0 4', "unknown guest 'c' (expected host or a guest's name)", True),
                             ('a cw 0 4 2 0xg', "invalid value '0xg' (expected a decimal or 0x-prefixed number below 2^32)", True),
                             ('host cw', "unknown command 'cw' (expected cr, ir, mr or move)", True), ('host mo', '', False),
                             ('a cr 0 0 4 4', "unexpected word '4' (expected 'cr SLOT OFFSET WIDTH')", True), ('a cr 0 0 4', '', False)]:
        browser.fill(text)
        equals(f'{text} is explained while it is typed', [browser.text_of('why'), browser.run(INVALID)], [why, str(wrong).lower()])


def what_fits_is_offered(browser, page):
    browser.open(f'{page}#board=main')
    for text, wanted in [('a', []), ('host c', ['cr']), ('host cr 2.0', ['00:02.0', '01:00.0', '01:01.0']), ('host cr 00:02.0 sec', ['0x19 1', '0x1b 1', '0x1e 2']),
                         ('a cw 0 comm', ['0x4 2']), ('host cr 00:02.0 bus', ['0x18 1', '0x19 1', '0x1a 1']),
                         ('host cr 00:02.0 window', ['0x1c 1', '0x1d 1', '0x20 2', '0x22 2', '0x24 2', '0x26 2', '0x28 4', '0x2c 4', '0x30 2', '0x32 2']),
                         ('host cr 00:02.0 limit', ['0x1d 1', '0x22 2', '0x26 2', '0x2c 4', '0x32 2']), ('host cr 01:00.0 5', []), ('a cr ', ['0', '1']), ('host move ', ['a', 'b']), ('host mr 1.0', ['0xc0100000']), ('', [])]:
        browser.fill(text)
        equals(f'after {text!r} is offered what fits', browser.texts_of('#offers b'), wanted)
    browser.fill('host cr 2.0')
    browser.press('ArrowDown', 'ArrowDown')
    at = browser.run("document.getElementById(document.getElementById('line').getAttribute('aria-activedescendant')).textContent")
    begins('the keys go through what is offered', at, '01:00.0 2.0/0.0')
    browser.press('Enter')
    equals('Enter takes it', browser.value_of('line'), 'host cr 01:00.0 ')
    browser.insert('ven')
    browser.press('Tab')
    equals('Tab takes what was begun', browser.value_of('line'), 'host cr 01:00.0 0x0 2 ')
    browser.fill('host cr 01:00.0 ven')
    equals('a name that is offered is not wrong', browser.run(INVALID), 'false')
    browser.fill('host cr 01:00.0 wxyz')
    ends('one that is not says what may be typed', browser.text_of('why'), "type part of a register's name, such as command, and choose it from the list")
    browser.fill('host cr 01:00.0 0x0 2')
    browser.press('Escape', 'Enter')
    equals('the line is run', browser.said_last('reply'), 'host: 0x1234')
    tops = browser.run("[...document.querySelector('#transcript .row').children].map(one => one.getBoundingClientRect().top)")
    holds('its reply stands beside it', len(tops) == 2 and abs(tops[0] - tops[1]) < 4, tops)
    browser.fill('')
    browser.press('Tab')
    equals('Tab leaves the box where nothing was begun', browser.run("document.activeElement.textContent"), 'Run')
    browser.type_line('a mr 1 4')
    equals('why a reply refuses is told', browser.said_last('why'), "the address, 0x1, isn't a multiple of the width, 4")
    browser.open(f'{page}#board=main&as=firmware')
    browser.fill('host cw 2')
    equals('firmware is offered what cycles find', browser.texts_of('#offers b'), ['00:02.0'])
    browser.fill('host re')
    equals('firmware is offered what tells whether the board is ready', browser.texts_of('#offers b'), ['ready'])
    browser.fill('a cr 0 0 4')
    equals('firmware has no guests', browser.text_of('why'), "unknown guest 'a' (expected host)")


def registers_have_words(browser, page):
    browser.open(f'{page}#board=main')
    equals('the first function of a guest is selected', browser.value_of('chosen'), '1.0')
    begins('it has words', browser.text_of('identity'), '1234:0001, subsystem 0000:0000, revision 00, class ff 00 00 (other)')
    browser.write_field('bar1', 'base', '0x80000000')
    equals("a base is a guest's line", browser.said_last(), 'a cw 0 0x14 4 0x80000000')
    browser.switch('Command', 'Memory space')
    equals("Command is a guest's line", browser.said_last(), 'a cw 0 0x4 2 0x2')
    equals('the bytes that changed are marked', browser.run("[...document.querySelectorAll('#bytes .changed')].map(one => one.title)"), ['0x04: Command'])
    equals('what it opens is drawn', browser.count_of('.joined'), 1)
    status, base = FIELD % ('Status', 'Detected parity error'), FIELD % ('bar1', 'base')
    browser.run(f'{status}.click()')
    equals('a bit of Status is cleared by a one', [browser.said_last(), browser.run(f'{status}.checked')], ['a cw 0 0x6 2 0x8000', False])
    equals('what is clear has no switch', browser.run(f'{status}.disabled'), True)
    browser.run(f'{base}.focus()')
    equals('the bytes of a field are marked with it', browser.texts_of('#bytes .lit'), ['00', '00', '00', '80'])
    browser.choose('view', 'board')
    equals('the board has its own registers', browser.run(f'[{base}.value, {base}.readOnly]'), ['0xc0100000', True])
    browser.select('2.0')
    holds('a bridge can be selected', browser.run(f"{FIELD % ('Buses', 'Secondary')}.value") == '0x01' and 'the host reads it' in browser.text_of('lost'), browser.text_of('lost'))
    browser.open(f'{page}#board=main&as=firmware')
    browser.switch('Command', 'SERR# enable')
    equals("firmware's bits of Command are lines", browser.said_last(), 'host cw 00:02.0 0x4 2 0x100')
    browser.write_field('Other', 'Line', '11')
    equals("firmware's other bytes are lines", browser.said_last(), 'host cw 00:02.0 0x3c 1 0xb')
    browser.type_line('host iw 0xcf8 4 0x80000800')
    answers(browser, 'the bytes are read without a trace', 'host ir 0xcfc 4', 'host: 0x00011234')


NAME_OF_BYTE = "document.querySelector('#bytes td[title^=\"0x%02x\"]').title.slice(6)"


def a_capability_list_is_a_chain(browser, page):
    browser.open(f'{page}#lesson=capabilities')
    browser.select('2.0/0.0')
    ends('the list is a chain', browser.text_of('identity'), '\nCapability list: 0x34 → [0xc8 Power Management] → [0xd0 MSI] → [0xa0 MSI-X] → end')
    names = ['Capabilities Pointer', 'Capability ID (Power Management)', 'Next Capability (MSI)', 'Message Control (MSI-X)', 'PBA Offset/BIR (MSI-X)']
    equals('its bytes have names', [browser.run(NAME_OF_BYTE % at) for at in [0x34, 0xc8, 0xd1, 0xa3, 0xa8]], names)
    fields = ['Table Size', 'Table BIR', 'Table Offset', 'PBA BIR', 'PBA Offset']
    equals('so do the parts of a register', [browser.run(f"{FIELD % ('MSI-X', name)}.value") for name in fields], ['0x4', '0x3', '0x0', '0x3', '0x2000'])
    browser.write_field('MSI at', 'Message Address', '0xfee00000')
    equals('a register of MSI is written by its field', browser.said_last(), 'web cw 0 0xd4 4 0xfee00000')
    browser.switch('MSI-X', 'MSI-X Enable')
    equals('a bit of Message Control by its switch', browser.said_last(), 'web cw 0 0xa2 2 0x8004')
    browser.fill('host cr 01:00.0 0xa2 2')
    begins('the bits are boxes', browser.labels_of(BITS)[0], f'Message Control, 0xa2: 0x8004, in bits {0x8004:016b}')
    browser.write_field('MSI-X', 'Table Offset', '0x1000')
    equals('what is read-only stays', browser.run(f"{FIELD % ('MSI-X', 'Table Offset')}.value"), '0x0')
    browser.click('#leave')
    browser.open(f'{page}#board=main')
    holds('a function without a list has no chain', 'Capability' not in browser.text_of('identity'), browser.text_of('identity'))


def functions_can_be_told_apart(browser, page):
    browser.open(f'{page}#lesson=wrong&part=5')
    chips = browser.texts_of('#tree .chip')
    holds('no two functions of the tree have one label', len(chips) == len(set(chips)) and any(one.endswith('3.0/0.0 1234:0008') for one in chips), chips)
    equals('two buses of one number are two in the table', browser.texts_of('#functions .fold'), ['− bus 00: 3', '− bus 01 behind 2.0: 3', '− bus 02 behind 2.0/2.0: 1', '− bus 01 behind 3.0: 1'])
    browser.open(f'{page}#lesson=wrong&part=8')
    equals('a problem of two regions of one function counts once there', browser.texts_of('#tree .bang .mark'), ['!'])
    equals('and is told once', browser.count_of('#functions tr[data-path="2.0/0.0"] .wrong'), 1)
    browser.run(FORGET)


# The views whose looks are tried, and the lines that are typed in them.
VIEWS = [*((task['name'], parts_of(task)[0][1], SOLUTIONS[parts_of(task)[0][0]][:-1]) for task in TASKS), ('lines', 'board=server', ['web cw 0 0x10 4 0xg', 'web cr 0 0 4']),
         ('left', 'lesson=wrong&part=1', [browse_ready.MENDED, *browse_ready.lines_of('prefetched')]),
         ('bytes', 'board=kinds&as=firmware', ['host cw 00:03.1 0x18 4 0x00010100'])]


def looks_fit(browser, page, folder, shot):
    for name, link, lines in VIEWS:
        nothing_is_cut(browser, page, name, link)
        for look, width, height, scheme in LOOKS:
            browser.open(f'{page}#{link}', width, height, scheme)
            browser.type_lines(lines)
            if name == 'lines':
                browser.fill('web cw 0 ')
            is_painted_well(browser, f'{look} {name}')
            browser.run('scrollTo(0, 0)')
            browser.picture(folder / f'{shot}{look}_{name}.png')
    browser.run(FORGET)


UNNAMED = """[...document.querySelectorAll('button, input, select, textarea, [role=listbox], [tabindex="0"]')].filter(one => one.checkVisibility() && !(one.labels?.length
  || one.getAttribute('aria-label') || one.textContent.trim() || one.title)).map(one => one.outerHTML)"""


def everything_has_a_name(browser, page):
    for link in ['lesson=wrong', 'board=main', 'board=main&as=firmware']:
        browser.open(f'{page}#{link}')
        browser.run("document.getElementById('own').open = true")
        equals(f'all controls of {link} have names', browser.run(UNNAMED), [])


ALL = [lessons_are_done, a_reply_counts_in_its_place, a_lesson_leads_on, a_teacher_hands_out, lines_are_explained, what_fits_is_offered, registers_have_words, a_capability_list_is_a_chain,
       functions_can_be_told_apart, everything_has_a_name]


def in_browser(browser, page, folder, shot=''):
    for check in [*browse_boards.ALL, *browse_firmware.ALL, *browse_hand_in.ALL, *ALL, *browse_lecture.ALL, *browse_newcomer.ALL, *browse_page.ALL, *browse_ready.ALL, *browse_robust.ONCE, *browse_screens.ALL, *browse_state.ALL, *browse_why.ALL]:
        check(browser, page)
    lessons = [(name, SOLUTIONS[name]) for task in TASKS for name, _ in parts_of(task)]
    for check in browse_conditions.checks_of(links_with_lines(), TASKS):
        check(browser, page)
    at_each_size(browser, page, [*browse_names.ALL, *browse_robust.ALL, *browse_scripts.ALL, *browse_sight.checks_of(lessons)])
    browse_state.the_state_looks_well(browser, page, folder, shot)
    browse_why.questions_look_well(browser, page, folder, shot)
    browse_lecture.a_lecture_looks_well(browser, page, folder, shot)
    looks_fit(browser, page, folder, shot)


def in_firefox(firefox, page, folder):
    if shutil.which('firefox-esr') is None and shutil.which('firefox') is None:
        print('Firefox is not here, so the page was used in Chromium alone')
        return
    with firefox.Browser.begun() as browser:
        in_browser(browser, page, folder, 'firefox_')
