"""The board goes elsewhere with its state: links, files and tasks with the state of its guests, used in any browser as a reader does, for
page/tests/browse."""
import json
import time

from reader import FIELD
from tried import CUT, LOOKS, MAPS, answers, begins, contains, ends, equals, holds, is_painted_well, set_up

TOLD = "document.getElementById('kept_told')"
# A board whose cells hold random bytes at reset, so that its state can't be made short.
NOISE = """(() => { const board = document.getElementById('board'), pattern = () => Array.from({ length: 4096 }, () => (Math.random() * 256 | 0).toString(16).padStart(2, '0')).join('');
  const region = index => `{ index = ${index}, kind = "mem32", size = 4096, block = 4096, reset = "${pattern()}" }`;
  board.value = `[host]\\nio = [0x1000, 0xffff]\\nmem = [0xc0000000, 0xdfffffff]\\n[[endpoint]]\\nat = "1.0"\\nvendor = 1\\ndevice = 1\\nclass = 0
bar = [${[0, 1, 2, 3].map(region)}]\\n[[guest]]\\nname = "a"\\nslots = ["1.0"]\\n`;
  board.dispatchEvent(new Event('input')); board.dispatchEvent(new Event('blur')); })()"""
# What guests of the main board do, and what the host does then.
LINES = ['a cw 0 0x14 4 0x80000000', 'a cw 0 4 2 2', 'a mw 0x80000004 4 0x12345678', 'b cw 0 0x10 4 0x90000000', 'b cw 0 4 2 2', 'host move a 0 b 3',
         'b cw 3 0x14 4 0xa0000000', 'b cw 3 4 2 2', 'b raise 3 bar1 0 1', 'b iw 0xcf8 4 0x80001810']
ASKED = ['b cr 3 0x10 4', 'b cr 3 0x14 4', 'b mr 0xa0000000 4', 'b mr 0x90000000 4', 'b ir 0xcfc 4', 'a cr 0 0 4', 'b mr 0xa0000004 4', 'host mr 0xc0100000 4']
# Leaves the image that these letters stand for in the page.
IMAGE = """(async () => { const letters = %s, bytes = Uint8Array.from(atob(letters.replaceAll('-', '+').replaceAll('_', '/')), one => one.charCodeAt(0));
  window.image = new Uint8Array(await new Response(new Blob([bytes]).stream().pipeThrough(new DecompressionStream('deflate-raw'))).arrayBuffer()); })()"""
# Its letters without compression, where its first byte is another one.
OTHER_BYTE = """(() => { window.image[0] ^= 1;
  return '.' + btoa(Array.from(window.image, one => String.fromCharCode(one)).join('')).replaceAll('+', '-').replaceAll('/', '_').replaceAll('=', ''); })()"""


def letters_of(file):
    return ''.join(line.removeprefix('#image ') for line in file.splitlines() if line.startswith('#image '))


def replies(browser):
    """What guests are answered now."""
    browser.type_lines(ASKED)
    return browser.texts_of('#transcript .reply')[-len(ASKED):]


def told(browser):
    browser.until(f"{TOLD}.textContent !== ''")
    return browser.text_of('kept_told')


def state_link(browser):
    browser.run(f"history.replaceState(null, '', '#'); {TOLD}.textContent = ''")
    browser.click('#state_link')
    return browser.new_link('kept')


def a_link_has_the_state(browser, page):
    browser.open(f'{page}#board=main')
    browser.type_lines(LINES)
    maps, link = browser.run(MAPS), state_link(browser)
    begins('a link with the state is told', told(browser), 'The link (1 KB, ')
    contains('with what is in it', told(browser), 'the board and the state of its guests, but none of their lines.')
    wanted = replies(browser)
    browser.open_elsewhere(page, link)
    browser.until(f'{MAPS}.length === 2')
    holds('guests have open what they had', browser.run(MAPS) == maps and len(maps) == 2, browser.run(MAPS))
    equals('none of their lines is shown', browser.text_of('transcript'), 'The state of its guests came with the board')
    contains('a function that moved is where it was', browser.title_of('1.0'), 'guest b, slot 3')
    browser.choose('chosen', '1.0')
    equals('its registers are as they were', browser.run(f"{FIELD % ('bar1', 'base')}.value"), '0xa0000000')
    contains('guests are answered', wanted[0], '0x')
    equals('as they were', replies(browser), wanted)
    browser.type_line('b cw 3 4 2 0')
    browser.click('#restart')
    equals('it starts again from the state', browser.run(MAPS), maps)
    begins('which is told', browser.text_of('transcript'), 'The state')
    browser.type_line('b cw 0 4 2 0')
    browser.open(page)
    browser.until("document.querySelectorAll('#transcript .row').length === 1")
    holds('the browser keeps the state and the lines since', browser.run(MAPS) == maps[:1] or browser.run(MAPS) == maps[1:], browser.run(MAPS))
    browser.lines_link()
    contains('a link to the lines has the state below them', told(browser), 'the state that came with it and the lines that were run since')
    browser.click('#as input[value=firmware]')
    browser.click('#as input[value=guests]')
    equals('another reader begins at set-up', [browser.run(MAPS), browser.text_of('kept_told')], [[], ''])


def a_file_has_the_state(browser, page):
    browser.open(f'{page}#board=main')
    browser.type_lines(LINES)
    maps = browser.run(MAPS)
    text = browser.saved_file('#state_file')
    begins('a file with the state is told', told(browser), 'board_with_state.toml (1 KB) holds the board and the state')
    wanted = replies(browser)
    browser.open(f'{page}#board=server')
    board = text[:text.index('#pciguest-state guests')]
    browser.type_board(text)
    begins('to others it is a board file', browser.text_of('verdict'), 'Set up: 3 endpoints')
    equals('in which nothing is wrong', browser.count_of('#numbers b'), 0)
    browser.open_file(json.dumps(text))
    browser.until("document.getElementById('transcript').textContent !== ''")
    equals('a file brings the state', browser.run(MAPS), maps)
    equals('and the board without it', browser.value_of('board'), board)
    equals('guests are answered as before the file', replies(browser), wanted)
    browser.open_file(json.dumps(text.replace('\n', '\r\n')))
    browser.until("document.querySelectorAll('#transcript .row').length === 0")
    equals('line ends of others do no harm', browser.run(MAPS), maps)
    browser.open(f'{page}#board=main')
    browser.run(IMAGE % json.dumps(letters_of(text)))
    browser.open_file('window.image')
    browser.until("document.getElementById('transcript').textContent !== ''")
    equals('the bytes of an image are opened over the board that is shown', browser.run(MAPS), maps)
    browser.click('#as input[value=firmware]')
    browser.open_file('window.image')
    contains('but not before guests have it', told(browser), 'no line that came with it hands the board over')
    return text


def what_is_refused_is_told(browser, page):
    text = a_file_has_the_state(browser, page)
    head, letters = text[:text.index('#image ')], letters_of(text)[:40]
    other = browser.run(OTHER_BYTE)
    cut = [('a file that is cut', text[:text.index('#end')], 'is cut, or was changed on its way.'), ('a state that is cut', text.replace(letters, ''), 'is cut, or was changed'),
           ('an image with another byte', f'{head}#image {other}\n#end\n', 'is no image of a machine: it is cut, or was changed on its way (905)'),
           ('a state of another board', text.replace('0xc0000000', '0xb0000000', 1), 'is of another board, of other guests, or of a board that firmware set up otherwise (907)'),
           ('a state of other guests', text.replace('name = "a"', 'name = "c"'), 'of other guests'),
           ('a state of a board that is refused', text.replace('vendor', 'vender', 1), 'needs a board, and the file of this one is refused')]
    for name, file, why in cut:
        browser.open(f'{page}#board=server')
        browser.open_file(json.dumps(file))
        found = told(browser)
        contains(f'{name} is refused in words', found, why)
        ends(f'{name} is refused as a whole', found, 'The board is shown without it.')
        equals(f'{name}: it is told in the console too', browser.said_last('refused'), found)
        equals(f'{name}: it stands out', [browser.run(f'{TOLD}.className'), browser.is_shown('kept_told')], ['wrong', True])
        if 'is refused' not in why:
            browser.type_offered()
            contains(f'{name}: the board can be used', browser.said_last('reply'), ': 0x')
            equals(f'{name}: nothing is open', browser.run(MAPS), [])


def a_refused_board_has_no_state(browser, page):
    browser.open(f'{page}#board=size')
    text = browser.saved_file('#state_file')
    contains('of a board that is refused the file alone is kept', told(browser), 'the file of the board alone: it is refused, so it has no state.')
    browser.open(f'{page}#board=server')
    browser.open_file(json.dumps(text))
    browser.until("document.getElementById('verdict').className === 'wrong'")
    begins('it is refused where it is opened too', browser.text_of('verdict'), '107')
    equals('and no state is missed there', browser.text_of('kept_told'), '')


def a_cut_link_is_told(browser, page):
    browser.open(f'{page}#board=main')
    browser.type_lines(LINES[:2])
    link = state_link(browser)
    for name, place in [('a link that is cut', link[:-30]), ('a task that is none', f'{page}#task=abc')]:
        browser.open_elsewhere(page, place)
        begins(f'{name} is told', told(browser), 'The link is cut off, or was changed on its way')
        browser.type_offered()
        contains(f'after {name} a board can be used', browser.said_last('reply'), ': 0x')


def a_link_may_be_long(browser, page):
    browser.open(f'{page}#board=main')
    browser.run('window.CompressionStream = undefined')
    browser.type_lines(LINES)
    plain = state_link(browser)
    contains('a browser that cannot compress makes a link too', plain, '#kept=.')
    browser.open_elsewhere(page, plain)
    holds('which is opened', browser.until(f'{MAPS}.length === 2'), browser.run(MAPS))
    browser.run(NOISE)
    before = browser.run('location.href')
    browser.run(f"{TOLD}.textContent = ''; document.getElementById('state_link').click()")
    ends('of a link that is too long a file is offered', told(browser), 'cut those above 32 KB: keep a file in its place.')
    equals('and none is made', browser.run('location.href'), before)


def firmware_has_a_state_once_guests_do(browser, page):
    browser.open(f'{page}#board=main&as=firmware')
    browser.type_lines(set_up())
    link = state_link(browser)
    contains('before guests have it firmware has lines alone', told(browser), "the board and firmware's 13 lines, which run again where it is opened: before host guests no guest has a state.")
    browser.open_elsewhere(page, link)
    browser.until("document.getElementById('transcript').textContent !== ''")
    begins('they run again', browser.text_of('transcript'), '13 lines ran before')
    equals('and leave the board in order', browser.text_of('total'), 'ok')
    browser.type_lines(['host guests', *LINES])
    maps, link = browser.run(MAPS), state_link(browser)
    contains('then the lines that handed it over are told', told(browser), 'the board, the 14 lines of firmware that handed it over, and the state of its guests, but none of their lines.')
    wanted = replies(browser)
    text = browser.saved_file('#state_file')
    browser.open_elsewhere(page, link)
    holds("firmware's guests have open what they had", browser.until(f'{MAPS}.length === 2') and browser.run(MAPS) == maps, browser.run(MAPS))
    equals('over what firmware did', browser.run('document.body.dataset.as'), 'firmware')
    wanted_lines = '\n'.join([*set_up(), 'host guests'])
    equals('by its lines', browser.text_of('transcript'), f'14 lines ran before{wanted_lines}The state of its guests came with the board')
    equals("firmware's guests are answered as they were", replies(browser), wanted)
    browser.open(f'{page}#board=server')
    browser.open_file(json.dumps(text.replace('0xd0000000', '0xd0001000')))
    contains('a board that firmware set up otherwise refuses it', told(browser), '(907)')
    browser.open(f'{page}#board=server')
    browser.open_file(json.dumps(text.replace('#line host guests\n', '')))
    contains('without the line that hands it over there is no machine', told(browser), 'no line that came with it hands the board over')
    equals('and firmware goes on', browser.run("document.body.hasAttribute('data-given')"), False)
    answers(browser, 'with its lines', 'host guests', 'host: ok')


def a_task_has_a_state(browser, page):
    browser.open(f'{page}#board=main')
    browser.type_lines(LINES)
    maps = browser.run(MAPS)
    browser.click('#own_state')
    link = browser.task_link('Find it', 'Close slot 3.', 'b cr 3 4 2 -> b: 0x0000  # Slot 3 is closed')
    browser.open(f'{page}#board=server')
    browser.open_task(link)
    equals('a task begins with a state', browser.run(MAPS), maps)
    equals('and shows no line', browser.text_of('transcript'), 'The state of its guests came with the board')
    browser.type_line('b cw 3 4 2 0')
    equals('the task with a state is done', browser.text_of('task_state'), 'Done.')
    browser.open(page)
    browser.until("document.getElementById('task_state').textContent === 'Done.'")
    equals('it comes back with its state', [browser.text_of('task_state'), browser.count_of('.joined')], ['Done.', 1])
    browser.click('#again')
    holds('and begins again with it', browser.run(MAPS) == maps and browser.text_of('task_state') != 'Done.', browser.run(MAPS))
    browser.click('#leave')


# What is offered with the state is named, and keys lead to it.
NAMED = "[...document.querySelectorAll('#with_state button')].map(one => [one.textContent.trim(), one.parentElement.getAttribute('aria-label'), one.tabIndex])"


def the_state_looks_well(browser, page, folder, shot):
    browser.open(f'{page}#board=main')
    wanted = [['Link to the state', 'The board with the state of its guests', 0], ['Keep a file', 'The board with the state of its guests', 0]]
    equals('what keeps the state has names', browser.run(NAMED), wanted)
    browser.type_lines(LINES)
    browser.run("document.getElementById('menu').open = true; document.getElementById('link').focus()")
    browser.press('Tab', 'Tab')
    equals('a key leads there', browser.focused(), 'state_link')
    browser.press('Enter')
    holds('a key makes the link', browser.until("location.hash.startsWith('#kept=')") and browser.run(f"{TOLD}.getAttribute('role')") == 'status', told(browser))
    link = browser.run('location.href')
    for look, width, height, scheme in LOOKS:
        browser.open(f'{page}#board=server', width, height, scheme)
        browser.open(link, width, height, scheme)
        browser.until(f'{MAPS}.length === 2')
        browser.click('#state_link')
        told(browser)
        is_painted_well(browser, f'{look} state')
        equals(f'{look} state: nothing is cut', browser.run(CUT), [])
        time.sleep(0.3)
        browser.picture(folder / f'{shot}{look}_state.png')
        browser.open(f'{page}#kept=abc', width, height, scheme)
        told(browser)
        is_painted_well(browser, f'{look} state that is refused')
        browser.picture(folder / f'{shot}{look}_state_refused.png')


ALL = [a_link_has_the_state, what_is_refused_is_told, a_refused_board_has_no_state, a_cut_link_is_told, a_link_may_be_long, firmware_has_a_state_once_guests_do, a_task_has_a_state]
