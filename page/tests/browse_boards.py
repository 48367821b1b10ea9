"""The page with a board, as a reader uses it, in any browser, for page/tests/browse: files that are typed, bars and guests' maps, large boards, narrow windows,
lines and stories."""
import json
import pathlib
import re
import sys

from browse_firmware import STORY
from reader import chip_of
from tried import CUT, MAPS, RANGE, SEEN, TOP, begins, contains, equals, holds, is_painted_well, nothing_is_cut


def the_page_is_one_file(browser, page):
    browser.open(f'{page}#board=main')
    size = pathlib.Path(sys.argv[1]).stat().st_size
    holds('the page has less than 3 MB', size < 3 << 20, size)
    equals('it fetches nothing', browser.run("performance.getEntriesByType('resource').map(one => one.name)"), [])


def a_board_is_typed(browser, page):
    browser.open(f'{page}#board=main')
    begins('the main board is set up', browser.text_of('verdict'), 'Set up: 3 endpoints')
    contains('its report is shown', browser.text_of('report'), '01:01.0 2.0/1.0 endpoint 1234:0004')
    equals('its functions are drawn', browser.paths_of('#tree .chip'), ['1.0', '2.0', '2.0/0.0', '2.0/1.0'])
    host = '[host]\nio = [0x1000, 0xffff]\nmem = [0xc0000000, 0xdfffffff]\n'
    browser.type_board(host)
    begins('a board that is typed is set up', browser.text_of('verdict'), 'Set up: 0 endpoints')
    browser.type_board(f'{host}unknown = 1\n')
    equals('a key that is not known is refused', browser.text_of('verdict'), "103 unknown key: a table in the file contains a key that isn't defined for it")
    begins('the key is told', browser.text_of('check'), "board.toml:4:11: error: host: unknown key 'unknown' (103)")


def what_is_wrong_is_told(browser, page):
    browser.open(f'{page}#board=many_numbers')
    lines = browser.texts_of('#check li')
    told = [line.split(':')[1] for line in lines if re.match(r'board\.toml:\d+:\d+: ', line)]
    equals('of a board that was never taken nothing is drawn', browser.is_shown('figures'), False)
    said = re.search(r'^== check many_numbers.toml\n(.*?)^fault ', (TOP / 'boards/refused/expected.txt').read_text(), re.MULTILINE | re.DOTALL)[1]
    equals('the page says what the program says', lines, said.replace('many_numbers.toml', 'board.toml').splitlines())
    equals('the lines that are told are marked', browser.texts_of('#numbers b'), sorted(set(told), key=int))
    browser.click('#check button')
    chosen = browser.run("(() => { const b = document.getElementById('board'); return b.value.slice(b.selectionStart, b.selectionEnd); })()")
    begins('a line that is told leads there', chosen, 'vendor = ')
    browser.type_board((TOP / 'boards/warnings.toml').read_text())
    equals('of a board that fits no line is marked as wrong', browser.count_of('#numbers b'), 0)
    warned, marked = {line.split(':')[1] for line in browser.texts_of('#check .warns')}, browser.texts_of('#numbers i')
    holds('what it warns of is marked otherwise', marked == sorted(warned, key=int) != [], f'{marked} in place of {warned}')
    browser.click('input[name=as][value=firmware]')
    equals('firmware is told no warnings', browser.count_of('#numbers :is(b, i), #check .warns'), 0)


def an_address_is_pointed_at(browser, page):
    browser.open(f'{page}#board=main')
    browser.put_mouse('[data-space=mem] .bars', 0.25, 30)
    [told] = browser.texts_of('[data-space=mem] .told')
    holds('the address under the mouse is told', told.startswith('0xc00') and '01:00.0 bar0' in told and 'guest b' in told, told)


def guests_have_own_addresses(browser, page):
    browser.open(f'{page}#board=main')
    contains('at reset nothing is enabled', browser.text_of('maps'), 'Nothing is enabled')
    browser.type_lines(['a cw 0 0x14 4 0x80000000', 'a cw 0 4 2 2', 'b cw 0 0x10 4 0x80000000', 'b cw 0 4 2 2'])
    wanted = ['guest a, slot 0 bar1: 0x80000000 to 0x80000fff, on the board 0xc0100000 to 0xc0100fff (00:01.0, 4 KB)',
              'guest b, slot 0 bar0: 0x80000000 to 0x800fffff, on the board 0xc0000000 to 0xc00fffff (01:00.0, 1 MB)']
    equals('two guests at one address have two places', browser.run(MAPS), wanted)
    places = browser.run("[...document.querySelectorAll('.joined .region:nth-of-type(1) .fill')].map(one => one.getAttribute('x'))")
    holds('their bars begin at one place', len(places) == 2 and places[0] == places[1], places)
    browser.type_line('b cw 0 0x10 4 0x90000000')
    said = browser.run(MAPS)
    holds('a base that is written moves its bar', len(said) == 2 and 'slot 0 bar0: 0x90000000' in said[1], said)
    browser.type_line('b cw 0 4 2 0')
    holds('a Command bit that is cleared closes it', len(browser.run(MAPS)) == 1, browser.run(MAPS))
    browser.type_line('host move a 0 b 1')
    equals('a function that moves is closed', browser.run(MAPS), [])
    browser.open(f'{page}#story=Three guests share a server&now')
    said = browser.run(MAPS)
    holds('a story shows two guests at one address', sum('bar0: 0x80000000 to' in one for one in said) == 2, said)
    equals('a guest that opens nothing is named', browser.run("document.querySelector('#maps > .whose')?.textContent"), 'Bguest store: nothing is enabled')
    equals('what is drawn stands in the table too', browser.count_of('.opened tr'), len(said) + browser.count_of('#maps .ghost') + 1)


def bars_can_be_read(browser, page):
    browser.open(f'{page}#board=server', 1400)
    texts = browser.texts_of('[data-space=mem] text')
    contains('bars have addresses', texts, '0xc0000000', '0xc28fffff', '0xc1400000')
    told = [one for one in texts if one.startswith('0x')]
    holds('no address is told twice', len(told) == len(set(told)), texts)
    holds('bars have names', any(one.endswith('of 00:04.0') for one in texts) and 'C 04:00.0 bar0' in texts, texts)
    equals('the legend has all guests and none', browser.texts_of('#guests .one'), ['Aguest web', 'Bguest store', 'Cguest desk', '–no guest'])
    marks = browser.run("[...document.querySelectorAll('#guests .badge')].map(one => getComputedStyle(one).backgroundImage)")
    holds('each guest has a pattern of its own', len(set(marks[:3])) == 3, marks)
    told, whole = "document.querySelector('[data-space=mem] .told').textContent", browser.run(RANGE)
    browser.focus('[data-space=mem] .bars')
    begins('a bar says what its keys do', browser.run(told), 'The arrow keys go')
    browser.press('ArrowRight')
    begins('the keys tell what stands there', browser.run(told), '00:04.0 mem window 0xc0000000 to 0xc10fffff')
    browser.press('ArrowRight')
    holds('the keys tell whose it is', browser.run(told).endswith('guest desk, slot 0'), browser.run(told))
    browser.press('Enter')
    holds('the keys zoom', browser.run(RANGE) != whole and '32 MB' in browser.run(RANGE), browser.run(RANGE))
    holds('what is zoomed into is told still', browser.run(told).endswith('guest desk, slot 0'), browser.run(told))
    browser.press('Escape')
    equals('the keys show all again', browser.run(RANGE), whole)
    browser.put_mouse('[data-space=mem] .bars', 0.6, 10, click=True)
    begins('a click zooms into a window', browser.run(RANGE), '0xc1400000 to 0xc1cfffff')
    browser.click('[data-space=mem] .buttons button:nth-child(4)')
    begins('a button shows the whole aperture', browser.run(RANGE), '0xc0000000 to 0xcfffffff')
    browser.mouse(1, 1)
    browser.focus(chip_of('4.0/0.0'))
    contains('a chip tells by the keyboard', browser.text_of('told'), 'VGA', 'bar5 io')


def a_narrow_page_holds_all(browser, page):
    for board in ['server', 'kinds', 'chain', 'largest', 'many_numbers']:
        browser.open(f'{page}#board={board}', 400, 800)
        cut = browser.run(CUT)
        holds(f'nothing of {board} is cut at 400 pixels', cut == [] and browser.run('document.documentElement.scrollWidth') <= 400, cut)
    nothing_is_cut(browser, page, 'a story', 'story=Three guests share a server&now')
    hidden = "(() => { const t = document.getElementById('tree'); return t.scrollHeight - t.clientHeight; })()"
    holds('a narrow page shows the whole tree', browser.run(hidden) <= 1, browser.run(hidden))
    for to, part in [('buses', 'tree'), ('transcript', 'line'), ('maps', 'maps'), ('editor', 'board')]:
        browser.click(f'#jump [data-to={to}]')
        holds(f'one tap shows {part}', browser.run(SEEN % part))


def a_large_board_folds(browser, page):
    for width in [1400, 400]:
        browser.open(f'{page}#board=largest', width)
        height = browser.run('document.documentElement.scrollHeight')
        holds(f'the largest board makes no long page at {width} pixels', height < 4500, height)
    few = browser.count_of('#tree .chip')
    browser.click('#tree [data-fold="0.0"]')
    equals('a bus unfolds', browser.count_of('#tree .chip'), few + 1)
    browser.click('#tree [data-more]')
    equals('a long bus shows all', browser.count_of('#tree .chip'), 129)
    browser.click('#functions .fold')
    equals('a bus of the table unfolds', browser.count_of('#functions tr[data-path]'), 128)


def a_board_is_kept(browser, page):
    browser.open(f'{page}#board=server')
    contains('chips have the class in words', browser.texts_of('#tree .chip'), 'A01:00.0 network2.0/0.0 8086:10c9', '00:02.0 bridge2.0 1b36:000c')
    for board in ['server', 'main', 'largest', 'guest_elsewhere', 'kinds']:
        browser.open(f'{page}#board={board}')
        browser.type_offered()
        said = browser.text_of('transcript')
        holds(f'the line that {board} offers works', ': 0x' in said and '0xffffffff' not in said, said)
    browser.open(f'{page}#board=main')
    browser.type_lines(['a cw 0 0x14 4 0x80000000', 'a cw 0 4 2 2'])
    link, said = browser.lines_link(), browser.text_of('transcript')
    browser.open(page)
    holds('the browser keeps the board and the script', browser.text_of('transcript') == said != '', browser.text_of('transcript'))
    browser.open_elsewhere(page, link)
    browser.until(f"document.getElementById('transcript').textContent === {json.dumps(said)}")
    holds('a link holds the board and the script', browser.text_of('transcript') == said and len(browser.run(MAPS)) == 1, link)


def colours_stand_out(browser, page):
    for scheme in ['light', 'dark']:
        for shown in ['story=Three guests share a server&now', 'board=server&as=firmware', f'{STORY}&now']:
            browser.open(f'{page}#{shown}', scheme=scheme)
            is_painted_well(browser, f'{shown} in the {scheme} theme')


def lines_are_run(browser, page):
    browser.open(f'{page}#board=main')
    browser.type_lines(['a cr 0 0 4', 'host move a 0 b 1'])
    contains('lines are answered', browser.text_of('transcript'), 'a: 0x00011234', 'host: ok')
    contains('a function that moved has its new guest', browser.title_of('1.0'), 'guest b, slot 1')


def stories_are_played(browser, page):
    browser.open(f'{page}#story=A function moves&now')
    wanted = (TOP / 'boards/expected.txt').read_text()
    replies = wanted.split('== move.script over main.toml\n')[1].split('\n== ')[0].strip().split('\n')
    browser.until(f"document.querySelectorAll('#transcript .reply').length >= {len(replies)}")
    equals('a story has the replies of its script', '\n'.join(browser.texts_of('#transcript .reply')), '\n'.join(replies))


ALL = [the_page_is_one_file, a_board_is_typed, what_is_wrong_is_told, an_address_is_pointed_at, guests_have_own_addresses, bars_can_be_read,
       a_narrow_page_holds_all, a_large_board_folds, a_board_is_kept, colours_stand_out, lines_are_run, stories_are_played]
