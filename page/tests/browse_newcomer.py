"""All lessons as somebody does them who knows the page alone, in any browser, for page/tests/browse: numbers are read off the tree, lines are
those that words and hints give, with another number or offset in them, and what is wrong is mended in the fields."""
from itertools import product

from tried import begins, contains, equals, holds

# The number of a function, as its chip says it.
NUMBER = """(() => { const chip = [...document.querySelectorAll('#tree .chip')].find(one => one.textContent.includes('%s'));
  return [...chip.childNodes].find(one => one.nodeType === 3).data.split(' ')[0]; })()"""
FITS = 'document.documentElement.scrollWidth <= innerWidth'


def number_of(browser, word):
    return browser.run(NUMBER % word)


def reads(browser, line):
    browser.type_line(line)
    return int(browser.said_last('reply').split('0x')[1], 16)


def writes(browser, path, *fields):
    for group, name, value in fields:
        browser.select(path)
        browser.write_field(group, name, value)


def switches(browser, path, *names):
    browser.select(path)
    for name in names:
        browser.switch('Command', name)


def read_a_board(browser, words, hint):
    card, bridge = number_of(browser, 'network'), number_of(browser, 'bridge')
    browser.type_lines([words[0].replace('00:02.0', card), f'host cr {bridge} 0x18 4', f'host cr {bridge} 0x20 4'])
    base = reads(browser, f'host cr {card} 0x10 4')
    browser.type_line(words[1].replace('ADDRESS', hex(base)))


def number_a_bridge(browser, words, hint):
    browser.type_lines([words[1], hint[0], hint[0].replace('0x19', '0x1a')])
    browser.type_line(f"host cr {number_of(browser, 'network')} 0 4")


def size_a_region(browser, words, hint):
    sizes = []
    for number, offset in [(words[0], '0x10'), (words[0], '0x14'), (words[1], '0x24')]:
        sent, back = [line.replace(words[0], number).replace('0x10', offset) for line in hint]
        browser.type_line(sent)
        sizes.append((~(reads(browser, back) & ~15) & 0xffffffff) + 1)
    writes(browser, '2.0/0.0', ('bar0', 'base', '0xc0000000'))
    writes(browser, '2.0/1.0', ('bar5', 'base', hex(0xc0000000 + sizes[0])))


def open_a_window(browser, words, hint):
    writes(browser, '2.0', ('Memory', 'first', '0xc0000000'), ('Memory', 'last', '0xc00fffff'), ('I/O', 'first', '0x1000'), ('I/O', 'last', '0x1fff'))
    switches(browser, '2.0', 'I/O space', 'Memory space')


# What is written in the fields of each broken firmware, once the audit and a question tell what is wrong.
MENDED = [('2.0', ('Memory', 'last', '0xc03fffff')), ('3.0', ('Memory', 'first', '0xc0400000')), ('2.0', ('Buses', 'Subordinate', '2')),
          ('2.0', ('Buses', 'Subordinate', '2')), ('3.0', ('Buses', 'Secondary', '3'), ('Buses', 'Subordinate', '3')), None,
          ('2.0/2.0/0.0', ('bar0', 'base', '0xc0000000')), ('2.0/0.0', ('bar2', 'base', '0x400000000'))]


def find_what_is_wrong(browser, words, hint):
    for nth, fields in enumerate(MENDED):
        holds(f'firmware {nth + 1} has something wrong', browser.count_of('#audit li') > 0)
        if browser.count_of('#tree .lost') > 0:
            browser.click('#tree .lost')
            contains('a function that is not found tells of its bridge', browser.text_of('asked'), 'the bridge above it')
        if fields is None:
            browser.click('#audit button')
            switches(browser, browser.value_of('chosen'), 'Memory space')
        else:
            writes(browser, *fields)
        holds(f'firmware {nth + 1} is mended', browser.text_of('task_state') == 'Done.', browser.texts_of('#audit li'))
        if nth + 1 < len(MENDED):
            browser.click('#next')


def make_the_board_ready(browser, words, hint):
    writes(browser, '2.0', ('Buses', 'Secondary', '1'), ('Buses', 'Subordinate', '1'))
    writes(browser, '2.0/0.0', ('bar0', 'base', '0xc0000000'), ('bar1', 'base', '0x1000'))
    writes(browser, '2.0/1.0', ('bar5', 'base', '0xc0020000'))
    writes(browser, '1.0', ('bar0', 'base', '0x2000'))
    open_a_window(browser, words, hint)
    switches(browser, '2.0/0.0', 'I/O space', 'Memory space')
    switches(browser, '2.0/1.0', 'Memory space')
    switches(browser, '1.0', 'I/O space')


def write_to_a_neighbour(browser, words, hint):
    place, opens, own, other = hint[:4]
    as_store = [line.replace('web', 'store') for line in (place.replace('0x10 ', '0x24 '), opens)]
    browser.type_lines(['host guests', place, opens, own, 'store mr 0x80000010 4', other, *as_store, other])


def move_a_function(browser, words, hint):
    browser.type_lines([*hint, 'store mr 0x90000010 4', 'host mr 0xc0000010 4'])


def an_address_above_4_gb(browser, words, hint):
    for offset in ['0x18', '0x1c']:
        browser.type_line(f'host cw {words[0]} {offset} 4 0xffffffff')
        reads(browser, f'host cr {words[0]} {offset} 4')
    writes(browser, '2.0/0.0', ('bar2', 'base', words[2]))
    writes(browser, '2.0', ('Prefetchable', 'first', words[2]), ('Prefetchable', 'last', hex(int(words[2], 16) + 0xffffff)))
    browser.type_line(f'host cw {number_of(browser, "bridge")} 0x20 4 0x0000fff0')
    switches(browser, '2.0', 'Memory space')
    switches(browser, '2.0/0.0', 'Memory space')


def two_bridges_one_number(browser, words, hint):
    browser.type_lines([f'host cr {words[0]} 0 4', words[2]])
    writes(browser, '3.0', ('Buses', 'Secondary', '2'), ('Buses', 'Subordinate', '2'))
    browser.type_line(hint[-1])


def a_guest_moves_live(browser, words, hint):
    browser.type_lines([hint[1], hint[2], hint[3], 'host mr 0xc0000010 4', words[-1], hint[-1]])


def walk_a_capability_list(browser, words, hint):
    browser.type_line(hint[0])
    offset, found = reads(browser, hint[1]), {}
    while offset != 0:
        header = reads(browser, words[1].replace('OFFSET', hex(offset)))
        found[header & 0xff], offset = offset, header >> 8
    table = reads(browser, f'host cr {words[0]} {found[0x11] + 4:#x} 4')
    base = reads(browser, f'host cr {words[0]} {0x10 + 4 * (table & 7):#x} 4')
    browser.type_line(words[2].replace('ADDRESS', hex(base + (table & ~7) + 0x0c)))


LESSONS = [read_a_board, number_a_bridge, size_a_region, open_a_window, find_what_is_wrong, make_the_board_ready, write_to_a_neighbour, move_a_function,
           an_address_above_4_gb, two_bridges_one_number, a_guest_moves_live, walk_a_capability_list]


def all_lessons_are_done(browser, page):
    for width, scheme in product([1400, 400], ['light', 'dark']):
        browser.open(page, width, 900, scheme)
        browser.run('localStorage.clear()')
        browser.open(page, width, 900, scheme)
        for nth, act in enumerate(LESSONS):
            browser.run(f"document.querySelectorAll('#steps button')[{nth}].click()")
            act(browser, browser.texts_of('#task_text code'), browser.texts_of('#hint_text code'))
            where = f'lesson {nth + 1} in the {scheme} theme at {width} pixels'
            holds(f'{where} is done by what the page says', browser.text_of('task_state') == 'Done.', browser.text_of('goals') + browser.text_of('lacks'))
            holds(f'{where} fits', browser.run(FITS))
        begins('all are done', browser.text_of('progress'), f'{len(LESSONS)} of {len(LESSONS)} done')
        browser.run('localStorage.clear()')


# What a reader has to know of each lesson's registers, without the hint.
NEEDED = [['0x18', '0x20', '0x10'], ['0x19', '0x1a'], ['0x10', '0x14', '0x24'], ['0x20', '0x22', '0x1c', '0x1d', 'offset 4', 'bit 0 enables I/O', 'upper bits']]


# The words of the page, each explained where it is first read.
WORDS = [('read', 'A region is'), ('read', 'A window is'), ('ready', 'The apertures are'), ('neighbour', 'A slot is')]


def words_are_explained(browser, page):
    for name, words in WORDS:
        browser.open(f'{page}#lesson={name}', 1280, 720)
        contains(f'the text of {name} explains a word', browser.text_of('task_text'), words)
    browser.open(f'{page}#board=server', 1280, 720)
    browser.run("document.getElementById('legend').open = true")
    contains('so does the legend', browser.text_of('legend'), 'region', 'window', 'aperture', 'slot')
    contains('what the page has of PCI Express is said at its top', browser.run("document.querySelector('header p').textContent"), 'PCI Express', 'ECAM')


def lesson_1_shows_both_headers(browser, page):
    browser.open(f'{page}#lesson=read', 1440, 900)
    found = browser.run("[...document.querySelectorAll('#headers table')].map(table => [...table.rows].map(row => [...row.cells].map(one => one.textContent).join('|')))")
    holds('lesson 1 shows the headers of an endpoint and of a bridge', len(found) == 2 and found[0][0] == '0x00|Device ID|Vendor ID' and found[0][4] == '0x10|Base Address Register 0'
          and found[1][6] == '0x18|Secondary Latency Timer|Subordinate Bus Number|Secondary Bus Number|Primary Bus Number', found)
    holds('each of 64 bytes', all(len(table) == 16 for table in found), [len(table) for table in found])
    browser.open(f'{page}#lesson=window', 1440, 900)
    equals('and no other lesson', browser.count_of('#headers table'), 0)


def texts_say_what_lines_need(browser, page):
    for name, needed in zip(['read', 'number', 'size', 'window'], NEEDED):
        browser.open(f'{page}#lesson={name}', 1280, 720)
        contains(f'the text of {name} says what its lines need', browser.text_of('task_text'), *needed)


ALL = [all_lessons_are_done, texts_say_what_lines_need, words_are_explained, lesson_1_shows_both_headers]
