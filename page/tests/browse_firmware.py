"""The page as firmware uses it, in any browser, for page/tests/browse: registers as fields, problems that come and go, and a board that is given away."""
import json

from browse_why import ASKED, CLICK
from reader import FIELD, PLAIN, chip_of
from tried import MAPS, SEEN, TOP, answers, begins, contains, equals, holds, nothing_is_cut, set_up

STORY_SCRIPT = TOP / 'boards/bridge.script'
# Goes to a moment.
STEP = "(() => { const one = document.getElementById('step'); one.value = %s; one.dispatchEvent(new Event('input')); })()"
STORY = 'story=Firmware numbers a bridge and opens a window'
def the_reader_is_firmware(browser, page):
    browser.open(f'{page}#board=main')
    browser.press_on('#as input', 'ArrowRight')
    equals('a key makes the reader firmware', browser.text_of('verdict'), 'Driven by firmware: 3 endpoints, 1 bridge')
    wanted = ['2.0/0.0: a configuration cycle to 00:00.0 reaches nothing', '2.0/1.0: a configuration cycle to 00:01.0 reaches 1.0']
    equals('at reset the audit tells of what is not found', browser.plain_texts_of('#audit li'), wanted)
    titles = browser.run(f"[...document.querySelectorAll('#tree .lost')].map(one => one.title.split('\\n')[1]{PLAIN})")
    equals('what is not found is marked in the tree', titles, wanted)
    equals('firmware sees no guests', [browser.is_shown(name) for name in ['maps', 'guests', 'fields']], [False, False, True])
    browser.type_offered()
    equals('the line that is offered works', browser.said_last('reply'), 'host: ok')
    answers(browser, 'a guest is unknown to firmware', 'a cr 0 0 4', '?: refused 402 unknown guest')


def registers_are_fields(browser, page):
    browser.open(f'{page}#board=main&as=firmware')
    fields = [('Buses', 'Secondary', '1', 'host cw 00:02.0 0x19 1 0x1'), ('Buses', 'Subordinate', '1', 'host cw 00:02.0 0x1a 1 0x1'),
              ('Memory', 'first', '0xc0000000', 'host cw 00:02.0 0x20 2 0xc000'), ('Memory', 'last', '0xc00fffff', 'host cw 00:02.0 0x22 2 0xc000'),
              ('I/O window', 'last', '0x1fff', 'host cw 00:02.0 0x1d 1 0x10'), ('Prefetchable', 'first', '0x4fff00000', 'host cw 00:02.0 0x28 4 0x4')]
    for group, name, value, line in fields:
        browser.write_field(group, name, value)
        equals(f'{group} {name} is a line', browser.said_last(), line)
    equals('a number of a bus makes problems go', [browser.texts_of('#audit li'), browser.text_of('total')], [[], 'ok'])
    equals('fields hold what was written', browser.run(f"{FIELD % ('Prefetchable', 'first')}.value"), '0x4fff00000')
    lines = browser.count_of('#transcript .said')
    browser.write_field('Buses', 'Primary', '0x100')
    holds('a number that is too large is no line', browser.count_of('#transcript .said') == lines, browser.said_last())


def problems_come_and_go(browser, page):
    browser.open(f'{page}#board=main&as=firmware')
    browser.type_lines(['host cw 00:02.0 0x18 4 0x010100', 'host cw 00:02.0 0x20 4 0xc000c000', 'host cw 00:02.0 0x24 4 0xfff0'])
    browser.press_on(chip_of('2.0/0.0'), 'Enter')
    equals('a key selects another function', browser.value_of('chosen'), '2.0/0.0')
    browser.write_field('bar0', 'base', '0xc0100000')
    browser.switch('Command', 'Memory space')
    equals('Command is a line', browser.said_last(), 'host cw 01:00.0 0x4 2 0x2')
    text = '2.0/0.0 bar0 at 0xc0100000 size 0x100000: 0xc0100000 is not forwarded by bridge 2.0'
    equals('a problem comes', browser.plain_texts_of('#audit li'), [text])
    holds('the console tells of it', browser.said_last('came') == f'+ {text}', browser.text_of('transcript'))
    equals('it is marked in the tree and in a bar', browser.counts_of('#tree .troubled', '#addresses .wrong', '#addresses .bang-at'), [2, 1, 1])
    browser.focus('[data-space=mem] .bars')
    told = []
    for _ in range(6):
        browser.press('ArrowRight')
        told += browser.plain_texts_of('[data-space=mem] .told')
    holds('the keys tell of it at its region', any(one.endswith(f'; ! {text}') for one in told), told)
    browser.focus('#audit button')
    equals('a problem shows its functions', browser.paths_of('#tree .lit'), ['2.0', '2.0/0.0'])
    browser.press('Enter')
    equals('a problem leads to its bridge', browser.value_of('chosen'), '2.0')
    browser.switch('Command', 'Memory space')
    browser.write_field('Memory', 'last', '0xc01fffff')
    holds('a problem goes', browser.texts_of('#audit li') == [] and browser.said_last('gone').endswith(text), browser.text_of('transcript'))


def a_link_is_of_firmware(browser, page):
    browser.open(f'{page}#board=main&as=firmware')
    browser.type_line('host iw 0xcf8 4 0x80000800')
    answers(browser, 'the page leaves CONFIG_ADDRESS as it was', 'host ir 0xcfc 4', 'host: 0x00011234')
    said = browser.text_of('transcript')
    browser.open_elsewhere(page, browser.lines_link())
    browser.until(f"document.getElementById('transcript').textContent === {json.dumps(said)}")
    holds('a link holds what firmware did', browser.text_of('transcript') == said and browser.run("document.body.dataset.as") == 'firmware')


def a_line_hands_the_board_over(browser, page):
    browser.open(f'{page}#board=main&as=firmware')
    browser.type_line('host guests')
    holds('a board that is not in order stays', browser.said_last('reply').endswith('\nhost: refused 207 not in order'), browser.text_of('transcript'))
    browser.type_lines(set_up())
    answers(browser, 'an audit is a line', 'host audit', 'audit: ok')
    answers(browser, 'a board in order is given', 'host guests', 'host: ok')
    answers(browser, 'a guest answers then', 'a cr 0 0 4', 'a: 0x00011234')
    equals('the board stays in order', [browser.texts_of('#audit li'), browser.text_of('total')], [[], 'ok'])
    browser.type_lines(['a cw 0 0x14 4 0x80000000', 'a cw 0 4 2 2'])
    wanted = ['guest a, slot 0 bar1: 0x80000000 to 0x80000fff, on the board 0xd0000000 to 0xd0000fff (00:01.0, 4 KB)']
    equals('what guests open is drawn, where firmware placed it', browser.run(MAPS), wanted)
    contains('functions have their guests', browser.title_of('1.0'), 'guest a, slot 0')
    browser.run(STEP % 4)
    browser.run(CLICK % 0.7)
    begins('firmware is asked at an earlier moment', browser.run(ASKED), 'host why mem ')
    browser.run(STEP % 'one.max')
    equals('and no more where guests have the board', [browser.run(ASKED), browser.text_of('step_told')], [None, '19 lines ran'])
    browser.click('#restart')
    equals('at reset no guest is there', browser.is_shown('maps'), False)


def firmware_has_a_story(browser, page):
    browser.open(f'{page}#{STORY}&now')
    browser.until("document.querySelectorAll('#transcript .gone').length >= 6")
    notes = browser.plain_texts_of('#transcript .came, #transcript .gone')
    wanted = ['+ 2.0/0.0: a configuration cycle to 01:00.0 reaches nothing', '− 2.0/0.0: a configuration cycle to 01:00.0 reaches nothing',
              '+ 2.0/0.0 bar0 at 0xc0000000 size 0x100000: 0xc0000000 is not forwarded by bridge 2.0',
              '− 2.0/0.0 bar0 at 0xc0000000 size 0x100000: 0xc0000000 is not forwarded by bridge 2.0',
              '+ 1.0 bar1 and 2.0: address conflict at memory 0xc0000000', '− 1.0 bar1 and 2.0: address conflict at memory 0xc0000000']
    holds('problems come and go in the story', [one for one in notes if one in wanted] == wanted, notes)
    equals('the story ends well', browser.text_of('total'), 'ok')
    drawn = browser.texts_of('[data-space=mem] text')
    holds('the window that it opens is drawn', any(one.endswith('of 00:02.0') for one in drawn) and '01:00.0 bar0' in drawn, drawn)


def firmware_may_have_any_board(browser, page):
    browser.open(f'{page}#board=memory_pool&as=firmware')
    browser.type_offered()
    begins('a board that set-up refuses is driven', browser.said_last('reply'), 'host: 0x0')
    browser.open(f'{page}#board=size&as=firmware')
    equals('over a file that is refused no line is offered', browser.run("document.getElementById('line').placeholder"), '')
    for board in ['server', 'main', 'kinds', 'largest']:
        nothing_is_cut(browser, page, f'{board} at reset', f'board={board}&as=firmware')
    for to, part in [('audited', 'audited'), ('chosen', 'fields')]:
        browser.click(f'#jump [data-to={to}]')
        holds(f'one tap shows {part}', browser.run(SEEN % part))


ALL = [the_reader_is_firmware, registers_are_fields, problems_come_and_go, a_link_is_of_firmware,
       a_line_hands_the_board_over, firmware_has_a_story, firmware_may_have_any_board]
