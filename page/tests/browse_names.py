"""One name for one thing, in any browser, for page/tests/browse: functions by the numbers that lines take, numbers written 0x20, what a wrong word was
meant to be, and the words of the page."""

from tried import answers, begins, contains, equals, holds

CHIPS = "[...document.querySelectorAll('#tree .chip')].map(one => [...one.childNodes].find(node => node.nodeType === 3).data.split(' ')[0])"
# Numbers that are written as 20h is, in all that the page says.
OLD_NUMBERS = r"(document.body.innerText.match(/\b(?:[0-9][0-9a-f]*|[a-f][0-9a-f]*[0-9][0-9a-f]*)h\b/gi) ?? [])"
# Words that the page doesn't use: each thing has one name, and is said plainly.
OLD_WORDS = r"(document.body.innerText.match(/audit is content|\blacks?\b|is no guest|had by|\bshut\b|\bnot open\b|the way of|mean harm|is told|\bstands?\b/gi) ?? [])"
VIEWS = ['lesson=read', 'lesson=number', 'lesson=size', 'lesson=window', 'lesson=wrong&part=1', 'lesson=ready', 'lesson=neighbour', 'lesson=move', 'lesson=wide',
         'lesson=twins', 'lesson=live', 'board=main', 'board=main&as=firmware', 'board=server']


def functions_have_one_name(browser, page, size):
    browser.open(f'{page}#lesson=window', *size)
    equals('chips say the numbers that lines take', browser.run(CHIPS), ['00:01.0', '00:02.0', '01:00.0', '01:01.0'])
    equals('with the paths below', browser.texts_of('#tree .chip .path'), ['1.0', '2.0', '2.0/0.0', '2.0/1.0'])
    first = browser.texts_of('#audit li')[0]
    holds('so does the audit', first.startswith('01:00.0 (2.0/0.0) bar0 at 0xc0000000') and '00:02.0 (2.0)' in first, first)
    browser.open(f'{page}#lesson=wrong&part=2', *size)
    contains('also in front of a colon', browser.texts_of('#audit li')[0], '00:03.0 (3.0): address conflict')
    browser.open(f'{page}#lesson=window', *size)
    equals('and the registers', browser.run("document.getElementById('chosen').selectedOptions[0].textContent"), '00:02.0 bridge, 2.0')
    browser.type_line('host cw 00:02.0 0x20 4 0xc000c000')
    begins('and what a line changed', browser.texts_of('#changes li')[0], '00:02.0 Memory Base')
    browser.open(f'{page}#lesson=number', *size)
    equals('on a bus without a number a function has none', browser.run(CHIPS)[2:], ['--:00.0', '--:01.0'])


def a_wrong_word_is_understood(browser, page, size):
    browser.open(f'{page}#lesson=window', *size)
    for text, wanted in [('host cw 00:02.0 20h', "the offset, '20h': did you mean 0x20?"), ('host mr c0000000h 4', "the address, 'c0000000h': did you mean 0xc0000000?"),
                         ('host cr 2.0/0.0 0 4', "the function, '2.0/0.0', is a path: did you mean its number, 01:00.0?")]:
        browser.fill(text)
        equals(f'{text} is understood while it is typed', browser.text_of('why'), wanted)
        browser.press('Escape', 'Enter')
        holds('and where it is refused', browser.said_last('why') == wanted or text.endswith('20h'), browser.said_last('why'))
    browser.fill('host cw 00:02.0 20h')
    browser.press('Tab')
    equals('Tab takes what was meant', browser.value_of('line'), 'host cw 00:02.0 0x20 ')
    browser.fill('h')
    holds('a word that is begun is not wrong', browser.text_of('why') == '' and browser.run("document.getElementById('line').ariaInvalid") != 'true', browser.text_of('why'))
    browser.open(f'{page}#lesson=number', *size)
    browser.fill('host cr 2.0/0.0 0 4')
    equals('a path that no number leads to is told', browser.text_of('why'), "the function, '2.0/0.0', is a path, and no number leads to that function yet")


def numbers_are_checked_while_typed(browser, page, size):
    browser.open(f'{page}#lesson=window', *size)
    for text, wanted in [('host cw 00:02.0 0x19 1 0x100', 'the value, 0x100, is too large for 1 byte: the line writes 0x0'),
                         ('host cr 00:02.0 0x18 3', 'the width is 1, 2 or 4 bytes, not 3'), ('host cw 00:02.0 0x19 2', "the offset, 0x19, isn't a multiple of the width, 2"),
                         ('host mr 0xc0000001 4', "the address, 0xc0000001, isn't a multiple of the width, 4"), ('host cw 00:02.0 0x20 4 0xc000c000', ''),
                         ('host ir 0x1001 2', "the port, 0x1001, isn't a multiple of the width, 2"), ('host why mem 0xc0000001', '')]:
        browser.fill(text)
        found = [browser.text_of('why'), browser.run("document.getElementById('why').classList.contains('wrong')")]
        equals(f'the numbers of {text} are checked', found, [wanted, wanted != ''])
    browser.fill('')
    for line, reply, why in [('host cw 00:02.0 0x22 2 0xc00fffff', 'host: ok', 'the value, 0xc00fffff, is too large for 2 bytes: the line writes 0xffff'),
                             ('host cr 00:02.0 0x22 2', 'host: 0xfff0', None), ('host cw 00:02.0 0x22 3 0', 'host: refused 302 width', 'the width is 1, 2 or 4 bytes, not 3'),
                             ('host cw 00:02.0 0x21 2 0', 'host: refused 301 misaligned', "the offset, 0x21, isn't a multiple of the width, 2")]:
        answers(browser, f'{line} is answered', line, reply)
        holds(f'at {line} its numbers are checked too', why in (None, browser.said_last('why')), browser.text_of('transcript'))
    equals('a line that is refused changed no register', browser.text_of('changes'), 'It changed no register.')
    browser.open(f'{page}#board=main', *size)
    browser.fill('a cw 0 4 2 0x10000')
    begins("so are a guest's", browser.text_of('why'), 'the value, 0x10000, is too large for 2 bytes')


def words_are_plain(browser, page, size):
    for view in VIEWS:
        browser.open(f'{page}#{view}', *size)
        browser.run("for (const one of document.querySelectorAll('details')) one.open = true")
        equals(f'numbers of {view} are written 0x20', browser.run(OLD_NUMBERS), [])
        equals(f'words of {view} are plain', browser.run(OLD_WORDS), [])
    equals('buttons of bars say what they show', browser.texts_of('[data-space=mem] .buttons button'), ['−', '+', 'Fit', 'All'])


ALL = [functions_have_one_name, a_wrong_word_is_understood, numbers_are_checked_while_typed, words_are_plain]
