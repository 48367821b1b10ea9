"""What is left to do until a board is ready, as the page tells it in any browser: lists, signs, bars and goals, for page/tests/browse."""
import base64
import json
import zlib

from reader import PLAIN
from tried import TOP, answers, ends, equals, holds, lines_in, set_up

LEFT = '#lacking li'
BARS = [f'#addresses {find}' for find in ['.lack-at', '.region.lacks', '.window.lacks', '.bang-at', '.region.wrong']]
SEEN = "document.querySelector('#tree [data-path=\"1.0\"]')"
# Beside the mistake of the lesson's first part, which is mended.
MENDED = 'host cw 00:02.0 0x22 2 0xc030'


def link_of(held, name):
    press = zlib.compressobj(wbits=-15)
    return f"#{name}={base64.urlsafe_b64encode(press.compress(json.dumps(held).encode()) + press.flush()).decode().rstrip('=')}"


def lines_of(name):
    return lines_in(TOP / f'examples/audit/{name}.script')


def what_is_left_is_listed(browser, page):
    browser.open(f'{page}#board=main&as=firmware')
    wanted = ['1.0 bar0 at 0x0 size 0x20: I/O decode is disabled', '1.0 bar1 at 0x0 size 0x1000: memory decode is disabled', '2.0/0.0 bar0 at 0x0 size 0x100000: memory decode is disabled',
              '2.0/0.0 bar1 at 0x0 size 0x8: I/O decode is disabled', '2.0/1.0 bar0 at 0x0 size 0x1000000: memory decode is disabled']
    equals('what is left at reset is counted', browser.text_of('left'), '5')
    equals('the first of it is listed', browser.plain_texts_of(LEFT), [*wanted[:4], '1 more'])
    browser.click('#lacking li:last-child button')
    equals('a button lists all', browser.plain_texts_of(LEFT), [*wanted, 'show fewer'])
    equals('functions have signs', browser.signs_of('.lack'), ['1.0 ○ 2', '2.0/0.0 ○ 2', '2.0/1.0 ○'])
    heard = browser.run("[...document.querySelectorAll('#tree .lack')].map(one => [one.firstChild.ariaHidden, one.lastChild.textContent.trim()])")
    equals('signs have words', heard, [['true', 'left to do: 2'], ['true', 'left to do: 2'], ['true', 'left to do: 1']])
    equals('what is left is not told as wrong', browser.run(f"{SEEN}.matches('.troubled, .lost') || {SEEN}.querySelector('.bang') !== null"), False)
    colours = browser.run("['#audit button', '#lacking button'].map(find => getComputedStyle(document.querySelector(find)).color)")
    holds('nor has it that colour', colours[0] != colours[1], colours)
    title = browser.run(f'{SEEN}.title{PLAIN}').split('\n')
    equals('a function tells what is left of it', title[1:], [f'left to do: {text}' for text in wanted[:2]])
    equals('so does its row', browser.plain_texts_of('#functions tr[data-path="1.0"] .lacks'), [f'○ left to do: {text}' for text in wanted[:2]])
    browser.focus('#lacking button')
    equals('a lack shows its function', browser.paths_of('#tree .lit'), ['1.0'])
    browser.press('Enter')
    equals('a lack leads to its function', browser.value_of('chosen'), '1.0')
    notes = browser.count_of('#transcript > *')
    browser.type_line('host cw 00:01.0 4 2 3')
    outside = ['1.0 bar0 at 0x0 size 0x20: 0x0 is outside the apertures', '1.0 bar1 at 0x0 size 0x1000: 0x0 is outside the apertures']
    equals('what is left follows a line', browser.plain_texts_of(LEFT)[3:5], outside)
    holds('the console tells problems alone', browser.count_of('#transcript > *') == notes + 1, browser.text_of('transcript'))


# A board of 72 functions, so many that the page looks at it once for all lines that run at once; the first ones have regions.
def large_board(behind='', regions=1):
    places = [f'{behind}{device}.{function}' for device in range(1, 10) for function in range(8)]
    bridge = '[[bridge]]\nat = "1.0"\nvendor = 0x1234\ndevice = 2\nio = "none"\npref = "none"\n' if behind else ''
    return '[host]\nio = [0x1000, 0xffff]\nmem = [0xc0000000, 0xcfffffff]\n' + bridge + ''.join(
        f'[[endpoint]]\nat = "{place}"\nvendor = 0x1234\ndevice = 1\nclass = 0xff0000\n'
        + ('bar = [ { index = 0, kind = "mem32", size = 4096 } ]\n' if nth < regions else '') for nth, place in enumerate(places))


def a_large_board_tells_little(browser, page):
    browser.open(f'{page}#board=largest&as=firmware')
    count, few = int(browser.text_of('left').split()[0]), browser.plain_texts_of(LEFT)
    holds('of much that is left little is listed', count > 500 and len(few) == 5 and few[4] == f'{count - 4} more', few)
    browser.open(page + link_of({'board': large_board(behind='1.0/', regions=72), 'script': '', 'as': 'firmware'}, 'kept'))
    browser.until("document.querySelectorAll('#lacking li').length > 0")
    equals('a folded bus counts what is left behind it', browser.signs_of('.lack'), ['1.0 ○ 72'])
    told = [line for line in browser.title_of('1.0').split('\n') if line.startswith('left to do: ')]
    holds('and tells the first of it', len(told) == 9 and told[8] == 'left to do: 64 more', told)
    browser.run("[...document.querySelectorAll('#functions .fold')].at(-1).click()")
    beyond = browser.run("[document.querySelectorAll('#functions .lacks').length, document.documentElement.scrollHeight - Math.ceil(document.body.getBoundingClientRect().bottom)]")
    holds('what rows tell makes no long page', beyond[0] == 72 and beyond[1] <= 1, beyond)


# A script of the examples, what it leaves, which functions have signs, and what is drawn in the bars by default.
KINDS = [('never_opened', '2.0/2.0/0.0 bar0 at 0xc0000000 size 0x1000: memory decode is disabled', ['2.0/2.0/0.0 ○'], [0, 0, 0]),
         ('outside_apertures', '1.0 bar0 at 0xe0000000 size 0x1000: 0xe0000000 is outside the apertures', ['1.0 ○'], [0, 0, 0]),
         ('prefetched', '2.0/0.0 bar0 at 0xc0200000 size 0x200000: bridge 2.0 forwards 0xc0300000 as prefetchable', ['2.0 ○', '2.0/0.0 ○'], [1, 1, 1]),
         ('primary_left', '2.0/2.0: Primary Bus Number is 00, but the bridge is on bus 01', ['2.0/2.0 ○'], [0, 0, 0])]


def each_kind_is_marked(browser, page):
    for name, text, signs, drawn in KINDS:
        browser.open(f'{page}#lesson=wrong&part=1')
        equals('beside a problem nothing else is left', [browser.text_of('total'), browser.text_of('left')], ['1 problem', 'nothing else'])
        browser.type_line(MENDED)
        equals('of a ready board it is told', [browser.text_of('total'), browser.text_of('left')], ['ok', 'nothing: the board is ready'])
        browser.type_lines(lines_of(name))
        equals(f'{name} is left to do', [browser.plain_texts_of(LEFT), browser.text_of('total')], [[text], 'ok'])
        equals(f'{name} has its signs', browser.signs_of('.lack'), signs)
        equals(f'{name} is drawn in the bars', browser.counts_of(*BARS), [*drawn, 0, 0])
        equals(f'{name} keeps a goal from being met', [browser.text_of('task_state'), *browser.plain_texts_of('#lacks')], ['1 of 2 conditions met', text])
        if name == 'outside_apertures':
            browser.press_on('[data-space=mem] .bars', *['ArrowRight'] * 12)
            ends('the keys tell of what is outside', browser.plain_texts_of('[data-space=mem] .told')[0], f'; left to do: {text}')
            browser.press('+')
            equals('and zoom to it', browser.counts_of(*BARS), [1, 1, 0, 0, 0])


def guests_leave_what_is_left(browser, page):
    browser.open(f'{page}#board=main&as=firmware')
    browser.type_lines(set_up(primary=5))
    text = '2.0: Primary Bus Number is 05, but the bridge is on bus 00'
    equals('a Primary is left', browser.plain_texts_of(LEFT), [text])
    answers(browser, 'the board is given all the same', 'host guests', 'host: ok')
    browser.type_line('a cw 0 4 2 2')
    equals('guests leave what is left', [browser.plain_texts_of(LEFT), browser.signs_of('.lack')], [[text], ['2.0 ○']])
    answers(browser, 'and are not asked', 'host ready', 'host: refused 401 bad line')
    browser.press('F8')
    equals('so it is where one goes back', [browser.plain_texts_of(LEFT), browser.signs_of('.lack')], [[text], ['2.0 ○']])
    browser.click('#restart')
    equals('at reset all is left again', browser.text_of('left'), '5')


def many_lines_give_a_board(browser, page):
    lines, text = 'host cw 00:01.0 4 2 2\nhost guests\nhost cr 00:01.0 4 2', '1.0 bar0 at 0x0 size 0x1000: 0x0 is outside the apertures'
    browser.open(page + link_of({'board': large_board(), 'script': lines, 'as': 'firmware'}, 'kept'))
    browser.until("document.querySelectorAll('#transcript .reply').length === 3 && document.querySelectorAll('#lacking li').length > 0")
    holds('lines that run at once give a board', browser.said_last('reply') == 'host: 0x0002', browser.text_of('transcript'))
    equals('which was looked at before', browser.plain_texts_of(LEFT), [text])
    task = {'title': 'Given', 'text': 'It is given.', 'board': large_board(), 'as': 'firmware', 'lines': lines, 'goal': 'ready\naudit: ok'}
    browser.open_task(page + link_of(task, 'task'))
    equals('so it is before a task', [browser.plain_texts_of(f'{LEFT}, #lacks'), browser.text_of('task_state')], [[text, text], '1 of 2 conditions met'])
    browser.open_task(page + link_of({**task, 'as': 'guests', 'lines': ''}, 'task'))
    equals('guests are told neither', browser.text_of('task_state'), '0 of 2 conditions met')


def a_board_without_a_report_is_told(browser, page):
    browser.open(f'{page}#board=memory_pool&as=firmware')
    listed = browser.plain_texts_of(LEFT)
    holds('what a board lacks that set-up refuses is listed', listed != [] and all(line.endswith(' decode is disabled') for line in listed), listed)
    browser.run("window.mistakes = []; addEventListener('error', event => mistakes.push(event.message))")
    browser.press_on('#lacking button', 'Enter')
    equals('and leads nowhere', browser.run('mistakes'), [])
    browser.type_board('unknown = 1')
    equals('of a file that is refused nothing is told', [browser.text_of('total'), browser.text_of('left'), browser.plain_texts_of(LEFT)], ['', '', []])


ALL = [what_is_left_is_listed, a_large_board_tells_little, each_kind_is_marked, guests_leave_what_is_left, many_lines_give_a_board,
       a_board_without_a_report_is_told]
