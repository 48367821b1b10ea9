"""Why something finds what it finds, asked on the page in any browser by a click and by keys, for page/tests/browse: at a reply of all ones, at
a function that no cycle finds, and at an address in a bar; and of guests, at their replies and in their own bars."""
from reader import PLAIN, chip_of
from tried import CUT, LAST, LOOKS, RANGE, answers, begins, contains, ends, equals, holds, is_painted_well, nothing_is_cut, set_up

LINES = '.question li'
ABOUT = f"document.querySelector('.question .about:not([hidden])')?.textContent{PLAIN} ?? null"
HEARD = f"document.getElementById('heard').textContent{PLAIN}"
ASKED = "document.querySelector('.question code')?.textContent ?? null"
IN = "document.querySelector('.question')?.closest('.row, #asked, [data-space]')?.matches('%s') ?? false"
BARS = ['#addresses .cause-at', '#addresses .asked-at', '#addresses .strip .asked']
AT_BAR = "document.activeElement.matches('[data-space=mem] .bars')"
# A click at a share of a bar's width, which any browser takes.
CLICK = """(() => { const one = document.querySelector('[data-space=mem] .bars'), box = one.getBoundingClientRect();
  one.dispatchEvent(new MouseEvent('click', { bubbles: true, clientX: box.left + %s * box.width, clientY: box.top + 10 })); })()"""
REFUSED = "2.0/0.0 bar0 at 0xc0200000 size 0x200000: bridge 2.0 doesn't forward it: memory window 0xc0000000-0xc02fffff, prefetchable window 0x400000000-0x4000fffff"


def ask_last(browser):
    browser.run(f'{LAST}.click()')


def press_last(browser):
    browser.run(f'{LAST}.focus()')
    browser.press('Enter')


def place_asked(browser):
    """The address that is asked about, or 0."""
    return int((browser.run(ASKED) or '0').split()[-1], 16)


def a_reply_is_asked(browser, page):
    browser.open(f'{page}#lesson=window')
    browser.type_lines(['host cr 00:02.0 0 4', 'host mr 0xc0000000 4'])
    equals('a reply of all ones can be asked, and no other', browser.counts_of('#transcript .reply', '#transcript button.reply[aria-expanded=false]'), [2, 1])
    press_last(browser)
    wanted = ['memory 0xc0000000: nothing responds', "2.0/0.0 bar0 at 0xc0000000 size 0x20000: bridge 2.0 doesn't forward it: memory decode is disabled (Command 0x0000)"]
    equals('its reply tells why', browser.plain_texts_of(LINES), wanted)
    equals('by a line of firmware', browser.run(ASKED), 'host why mem 0xc0000000')
    holds('beside what was read', browser.run(IN % '.row'))
    equals('it is about what was read, and nothing besides', browser.run(ABOUT), None)
    equals('the reply is heard', browser.run(HEARD), '; '.join(wanted))
    equals('the button says that it is told', browser.run(f"{LAST}.getAttribute('aria-expanded')"), 'true')
    equals('functions that are named have signs', browser.signs_of('.cause'), ['2.0 ?', '2.0/0.0 ?'])
    contains('and tell it', browser.run(f"document.querySelector('{chip_of('2.0')}').title{PLAIN}").split('\n'), f'why: {wanted[1]}')
    equals('so do their rows', browser.plain_texts_of('#functions tr[data-path="2.0"] .causes'), [f'? why: {wanted[1]}'])
    equals('the region and the address are drawn', browser.counts_of(*BARS), [1, 1, 1])
    browser.press_on('.question li button', 'Enter')
    equals('a line leads to the bridge', browser.value_of('chosen'), '2.0')
    count = browser.count_of('#transcript .row')
    browser.type_lines(['host cw 00:02.0 0x20 4 0xc000c000', 'host cw 00:02.0 4 2 3'])
    begins('it says that it answers as registers are now', browser.texts_of('.question .line')[0], 'now: host why mem 0xc0000000')
    equals('it follows what is written', browser.plain_texts_of(LINES), ['memory 0xc0000000: 2.0/0.0 bar0 responds at offset 0x0', 'bridge 2.0 forwards it to bus 01'])
    equals('and what is marked with it', [browser.signs_of('.cause'), browser.counts_of(*BARS)], [[], [0, 1, 1]])
    equals('what is asked is none of the lines', browser.count_of('#transcript .row'), count + 2)
    press_last(browser)
    closed = [browser.count_of('.question'), browser.text_of('heard'), *browser.run(f"[{LAST}.getAttribute('aria-expanded'), {LAST} === document.activeElement]")]
    equals('Enter closes it again', closed, [0, '', 'false', True])
    ask_last(browser)
    browser.press_on('.question .fold', 'Escape')
    equals('so does Escape', [browser.run(ASKED), browser.run(f'{LAST} === document.activeElement')], [None, True])


def numbers_and_ports_are_asked(browser, page):
    browser.open(f'{page}#board=main&as=firmware')
    browser.type_line('host cr 01:00.0 0 2')
    ask_last(browser)
    equals('a number that reaches nothing is told', browser.plain_texts_of(LINES), ['01:00.0 reaches nothing', 'no bridge on bus 00 claims bus 01'])
    browser.type_line('host cw 00:02.0 0x18 4 0x010100')
    equals('the way that it takes then is told', browser.plain_texts_of(LINES), ['01:00.0 reaches 2.0/0.0', 'bridge 2.0 claims bus 01'])
    equals('and its bridge marked', browser.signs_of('.cause'), ['2.0 ?'])
    browser.type_lines(['host iw 0xcf8 4 0x80050010', 'host ir 0xcfc 4'])
    ask_last(browser)
    wanted = ['I/O 0xcfc: CONFIG_ADDRESS (0x80050010) selects offset 0x10 of 05:00.0', '05:00.0 reaches nothing', 'no bridge on bus 00 claims bus 05']
    equals('a port of CONFIG_ADDRESS is explained', browser.plain_texts_of(LINES), wanted)
    equals('one question is told at a time', browser.count_of('.question'), 1)
    answers(browser, 'the latch stays as it was', 'host ir 0xcf8 4', 'host: 0x80050010')
    browser.open(f'{page}#board=memory_pool&as=firmware')
    browser.type_line('host mr 0x10 4')
    ask_last(browser)
    equals('a board without a report is asked too', browser.plain_texts_of(LINES)[0], 'memory 0x10: nothing responds')


def a_lost_function_is_asked(browser, page):
    has_keys = f"document.querySelector('{chip_of('3.0/0.0')}') === document.activeElement"
    browser.open(f'{page}#lesson=wrong&part=5')
    browser.focus(chip_of('3.0/0.0'))
    contains('a function that is not found says that it can be asked', browser.text_of('told'), 'a click or Enter asks why')
    browser.press('Enter')
    wanted = ['01:00.0 reaches 2.0/0.0', 'bridge 2.0 claims bus 01', 'bridge 3.0 claims bus 01', "3.0/0.0 has this BDF but isn't reached"]
    equals('it tells what its number reaches', browser.plain_texts_of(LINES), wanted)
    holds('below the tree', browser.run(IN % '#asked'))
    about = '3.0/0.0 is looked for at %s: the bridge above it, 3.0, has Secondary %s'
    equals('with the bridge that gives it that number', browser.run(ABOUT), about % ('01:00.0', '01'))
    begins('which is heard', browser.run(HEARD), about % ('01:00.0', '01'))
    equals('what takes the cycle is marked', browser.signs_of('.cause'), ['2.0 ?', '3.0 ?'])
    equals('the function is selected, and has the keys', [browser.value_of('chosen'), browser.run(has_keys)], ['3.0/0.0', True])
    browser.press('Enter')
    equals('Enter closes what it asked', [browser.run(ASKED), browser.signs_of('.cause'), browser.run(has_keys)], [None, [], True])
    browser.select('3.0/0.0')
    browser.type_line('host cw 00:03.0 0x18 4 0x00030300')
    equals('the question stays as it was asked', browser.run(ASKED), 'host why cfg 01:00.0')
    equals('but what it is about follows', browser.run(ABOUT), about % ('03:00.0', '03'))
    browser.select('1.0')
    equals('a function that is found is only selected', [browser.value_of('chosen'), browser.run(ASKED)], ['1.0', 'host why cfg 01:00.0'])


def two_functions_at_one_number_are_asked(browser, page):
    browser.open(f'{page}#board=server&as=firmware')
    for path in ['2.0/0.0', '4.0/0.0']:
        browser.select(path)
        wanted = f'{path} is looked for at 00:00.0: the bridge above it, {path[:3]}, has Secondary 00, so its bus has no number'
        equals(f'a click on {path} asks about it', [browser.run(ABOUT), browser.run(ASKED)], [wanted, 'host why cfg 00:00.0'])


def an_address_is_asked(browser, page):
    browser.open(f'{page}#lesson=wrong&part=1')
    whole = browser.run(RANGE)
    browser.run(CLICK % 0.62)
    place = place_asked(browser)
    holds('a click asks at its address', 0xc0300000 <= place < 0xc0400000 and browser.run(RANGE) == whole, hex(place))
    equals('why nobody answers there', browser.plain_texts_of(LINES), [f'memory {place:#x}: nothing responds', REFUSED])
    holds('below the bar', browser.run(IN % '[data-space=mem]'))
    equals('the region and the windows are drawn', browser.counts_of(*BARS), [3, 1, 1])
    browser.type_line('host cw 00:02.0 0x22 2 0xc030')
    wanted = [f'memory {place:#x}: 2.0/0.0 bar0 responds at offset {place - 0xc0200000:#x}', 'bridge 2.0 forwards it to bus 01']
    equals('the reply follows', browser.plain_texts_of(LINES), wanted)
    holds('and stays below the bar', browser.run(IN % '[data-space=mem]'))
    browser.press_on('[data-space=mem] .bars', 'ArrowRight', 'Enter')
    equals('Enter asks where something begins', browser.plain_texts_of(LINES), ['memory 0xc0400000: 3.0/0.0 bar0 responds at offset 0x0', 'bridge 3.0 forwards it to bus 03'])
    holds('the bar keeps the keys', browser.run(AT_BAR))
    browser.press('+')
    holds('a key zooms in', browser.run(RANGE) != whole and browser.run(AT_BAR), browser.run(RANGE))
    holds('what is asked stays', browser.run(IN % '[data-space=mem]') and browser.counts_of(*BARS)[1] == 1, browser.counts_of(*BARS))
    browser.press('Escape')
    equals('Escape shows all', browser.run(RANGE), whole)
    browser.click('[data-space=mem] .buttons button:nth-child(2)')
    holds('a button zooms in', browser.run(RANGE) != whole, browser.run(RANGE))
    browser.click('.question .fold')
    equals('a question that is closed leaves the keys to its bar', [browser.run(ASKED), browser.run(AT_BAR)], [None, True])
    browser.run(CLICK % 0.5)
    browser.click('#restart')
    equals('a reset forgets what was asked', [browser.run(ASKED), browser.signs_of('.cause')], [None, []])


def an_empty_bar_keeps_its_question(browser, page):
    browser.open(f'{page}#lesson=window')
    browser.run(CLICK % 0.2)
    asked = browser.run(ASKED)
    browser.type_lines(['host cw 01:00.0 4 2 0', 'host cw 01:01.0 4 2 0', 'host cr 00:02.0 0 4'])
    equals('a question stays below its bar when nothing is left there', [browser.run(IN % '[data-space=mem]'), browser.run(ASKED)], [True, asked])
    ends('and tells all that keeps a region from answering', browser.plain_texts_of(LINES)[1],
         "memory decode is disabled (Command 0x0000); bridge 2.0 doesn't forward it: memory decode is disabled (Command 0x0000)")


# What a guest is told of a region that is closed.
CLOSED = ['memory 0x80000010: nothing responds', 'slot 0 bar1 at 0x80000000 size 0x1000: decode is disabled (Command 0x0000)']
ANSWERS = ['memory 0x80000010: slot 0 bar1 responds at offset 0x10']


def a_guest_is_asked(browser, page):
    browser.open(f'{page}#board=main')
    browser.type_lines(['a cw 0 0x14 4 0x80000000', 'a mr 0x80000010 4'])
    press_last(browser)
    equals('a guest is told why nobody answers', browser.plain_texts_of(LINES), CLOSED)
    equals('by what the prompt for Python takes', browser.run(ASKED), 'why a mem 0x80000010')
    holds('beside what the guest read', browser.run(IN % '.row'))
    equals('what the guest is told is heard', browser.text_of('heard'), '; '.join(CLOSED))
    equals('the function in the slot has a sign', browser.signs_of('.cause'), ['1.0 ?'])
    equals('a bar of the board has none, as it is no address of the board', browser.counts_of(*BARS), [0, 0, 0])
    browser.select('2.0/1.0')
    browser.press_on('.question li button', 'Enter')
    equals('a line leads to the function in the slot', browser.value_of('chosen'), '1.0')
    browser.type_line('a cw 0 4 2 2')
    equals('it follows what the guest writes', [browser.plain_texts_of(LINES), browser.signs_of('.cause')], [ANSWERS, []])
    browser.type_lines(['host move a 0 b 3', 'host move b 3 a 0'])
    equals('a function that was moved is at reset', [browser.plain_texts_of(LINES), browser.signs_of('.cause')], [CLOSED[:1], []])
    press_last(browser)
    equals('Enter closes what was asked of a guest', [browser.run(ASKED), browser.run(f'{LAST} === document.activeElement')], [None, True])


def slots_and_ports_of_a_guest_are_asked(browser, page):
    browser.open(f'{page}#board=main')
    latch = 'I/O 0xcfc: CONFIG_ADDRESS (0x%x) %s'
    for lines, wanted in [
            (['a cr 5 0 4'], ['slot 5 offset 0x0: slot 5 is empty']),
            (['a ir 0xcfc 4'], [latch % (0, 'is disabled'), 'I/O 0xcfc: nothing responds']),
            (['a iw 0xcf8 4 0x80002800', 'a ir 0xcfc 4'], [latch % (0x80002800, 'selects offset 0x0 of 00:05.0'), 'I/O 0xcfc: slot 5 is empty']),
            (['a iw 0xcf8 4 0x80010000', 'a ir 0xcfc 4'], [latch % (0x80010000, 'selects offset 0x0 of 01:00.0'), 'I/O 0xcfc: there is no slot at 01:00.0'])]:
        browser.type_lines(lines)
        ask_last(browser)
        equals(f'what is told after {lines[-1]}', browser.plain_texts_of(LINES), wanted)
    equals('one question of a guest is told at a time', browser.count_of('.question'), 1)
    answers(browser, "the guest's latch stays as it was", 'a ir 0xcf8 4', 'a: 0x80010000')
    browser.type_lines(['host cw 00:01.0 0x10 4 0', 'host mr 0x10 4'])
    equals('of their host nothing is asked', browser.run(f'{LAST}.textContent'), 'a: 0xffffffff')
    browser.click('#restart')
    equals('a board that is set up anew forgets it', [browser.run(ASKED), browser.count_of('#transcript button.reply')], [None, 0])


def a_bar_of_a_guest_is_asked(browser, page):
    browser.open(f'{page}#board=main', 1100)
    browser.type_lines(['a cw 0 0x14 4 0x80000000', 'a cw 0 4 2 2', 'b cw 0 0x10 4 0x90000000', 'b cw 0 4 2 2'])
    own = """(() => { const one = document.querySelectorAll('.map')[0], box = one.getBoundingClientRect(), [a, b] = [...document.querySelectorAll('.joined .fill')]
      .filter((_, nth) => nth %% 2 === 0).map(each => each.getBoundingClientRect()), x = %s;
      (document.elementFromPoint(x, box.top + 28) ?? one).dispatchEvent(new MouseEvent('click', { bubbles: true, clientX: x, clientY: box.top + 28 })); })()"""
    browser.run("document.getElementById('maps').scrollIntoView({ block: 'center' })")
    browser.run(own % '(a.left + a.right) / 2')
    place = place_asked(browser)
    holds("a click on a guest's bar asks at its address", 0x80000000 < place < 0x80001000, browser.run(ASKED))
    equals('and tells who answers', browser.plain_texts_of(LINES), [f'memory {place:#x}: slot 0 bar1 responds at offset {place - 0x80000000:#x}'])
    holds("below the guest's bar", browser.run("document.querySelectorAll('#maps svg')[0].nextSibling.querySelector('.question') !== null"))
    browser.run(own % '(b.left + b.right) / 2')
    place = place_asked(browser)
    holds("another click asks where another guest's region stands", 0x90000000 < place < 0x90100000, browser.run(ASKED))
    equals('and nobody answers there', browser.plain_texts_of(LINES), [f'memory {place:#x}: nothing responds'])
    browser.press_on('.joined', 'Enter')
    equals('Enter asks where a region begins', browser.run(ASKED), 'why a mem 0x80000000')
    browser.type_line('a cw 0 4 2 0')
    equals('what was asked at a region stays when it closes', browser.plain_texts_of(LINES), ['memory 0x80000000: nothing responds', CLOSED[1]])
    equals('below its bar, where the region is drawn in dashes', browser.count_of('#maps .question'), 1)
    browser.type_line('a cw 0 0x14 4 0')
    equals('below all bars, where its own is gone', browser.count_of('#asked_there .question'), 1)
    browser.type_line('a cw 0 4 2 2')
    browser.press_on('.question .fold', 'Escape')
    equals('the region has the keys again', [browser.run(ASKED), browser.run('document.activeElement.dataset.one')], [None, 'a 0 bar1'])


def guests_of_a_given_board_are_asked(browser, page):
    browser.open(f'{page}#board=main&as=firmware')
    browser.type_line('host cr 05:00.0 0 4')
    ask_last(browser)
    browser.type_lines([*set_up(primary=5), 'host guests'])
    equals('a board that is given is asked no more', [browser.run(ASKED), browser.run(f'{LAST}.disabled')], [None, True])
    whole = browser.run(RANGE)
    browser.run(CLICK % 0.7)
    holds('a click zooms there', browser.run(RANGE) != whole and browser.run(ASKED) is None, browser.run(RANGE))
    browser.type_lines(['a cw 0 0x14 4 0x80000000', 'a cw 0 4 2 0', 'a mr 0x80000010 4'])
    ask_last(browser)
    equals('a guest of it is asked', [browser.plain_texts_of(LINES), browser.signs_of('.cause')], [CLOSED, ['1.0 ?']])
    browser.type_line('a cw 0 4 2 2')
    equals('and again after each line', [browser.plain_texts_of(LINES), browser.signs_of('.cause')], [ANSWERS, []])


# What is asked where something is wrong, in a reply and in a bar.
def ask_in(browser, where):
    if where == 'bar':
        browser.run(CLICK % 0.7)
    else:
        browser.type_line('host mr 0xc0300000 4')
        ask_last(browser)


def questions_look_well(browser, page, folder, shot):
    for width in [1400, 400]:
        browser.open(f'{page}#board=main', width, 800)
        browser.type_lines(['a cw 0 0x14 4 0x80000000', 'a mr 0x80000010 4'])
        ask_last(browser)
        equals(f"nothing of a guest's question is cut at {width} pixels", browser.run(CUT), [])
        is_painted_well(browser, f"a guest's question at {width} pixels")
    for where in ['reply', 'bar']:
        nothing_is_cut(browser, page, f'a question in a {where}', 'lesson=wrong&part=1', lambda: ask_in(browser, where))
        for look, width, height, scheme in LOOKS:
            browser.open(f'{page}#lesson=wrong&part=1', width, height, scheme)
            ask_in(browser, where)
            is_painted_well(browser, f'{look}, a question in a {where}')
            holds(f'{look}: regions are beside a question in a {where}', browser.count_of('.fill') > 0)
            browser.run("document.getElementById('addresses').scrollIntoView({ block: 'end' })" if where == 'bar' else 'scrollTo(0, 0)')
            browser.picture(folder / f'{shot}{look}_why_{where}.png')


ALL = [a_reply_is_asked, numbers_and_ports_are_asked, a_lost_function_is_asked, two_functions_at_one_number_are_asked, an_address_is_asked, an_empty_bar_keeps_its_question, a_guest_is_asked,
       slots_and_ports_of_a_guest_are_asked, a_bar_of_a_guest_is_asked, guests_of_a_given_board_are_asked]
