"""Cause and effect, as a lecturer shows them on a projector and a student sees them on a phone, in any browser, for page/tests/browse: lines,
tree and bars in one view, steps back and forward, a cycle on its way, and bits."""
import json

from reader import FIELD
from tried import BITS, CUT, SIZES, STOPS, WINDOW, answers, begins, contains, equals, holds, is_painted_well

# Whether all of a part stands in the window.
IN_VIEW = """(() => { const b = document.querySelector('%s').getBoundingClientRect();
  return b.height > 0 && b.top >= 0 && b.bottom <= innerHeight && b.left >= 0 && b.right <= innerWidth; })()"""
BARS = ['#addresses .was-at', '#addresses .region.changed', '#addresses .window.changed']
HINT = '#bits > .hint:last-child'
# Of each control its height and width, but for one in a line of text; of a switch, that of its label.
SMALL = """[...document.querySelectorAll('button, select, input, textarea, summary, [role=button]:not(svg *), [role=option]')].filter(one => one.checkVisibility())
  .map(one => [one, (/checkbox|radio|file/.test(one.type) && one.closest('label') || one).getBoundingClientRect()])
  .filter(([, box]) => box.height < 23.9 || box.width < 23.9).map(([one, box]) => `${one.outerHTML.slice(0, 90)} ${box.width}x${box.height}`)"""
# Texts that are painted smaller than 13 pixels.
TINY = """[...document.querySelectorAll('body *:not(script, style, option)')].filter(one => one.checkVisibility() && parseFloat(getComputedStyle(one).fontSize) < 13
  && [...one.childNodes].some(node => node.nodeType === 3 && node.data.trim() !== '')).map(one => `${one.tagName} ${one.className} ${one.id}`)"""


def all_is_in_one_view(browser, page):
    for width, height in SIZES[:4]:
        for lesson in ['window', 'size', 'number', 'ready']:
            browser.open(f'{page}#lesson={lesson}', width, height)
            browser.type_lines(WINDOW)
            for part in ['#line', '#tree', '#addresses .bars', '#changes']:
                if part != '#addresses .bars' or lesson in ('window', 'size'):
                    seen = browser.run(f"document.querySelector('{part}') === null || {IN_VIEW % part}")
                    holds(f'{part} of {lesson} is in view at {width} by {height}', seen is True, browser.run(f"JSON.stringify(document.querySelector('{part}').getBoundingClientRect())"))
    browser.open(f'{page}#lesson=move', 1440, 900)
    browser.type_line('web cw 0 0x10 4 0x90000000')
    for part in ['#line', '#tree', '#maps .map']:
        equals(f'{part} of a lesson of guests is in view', browser.run(IN_VIEW % part), True)


def a_phone_leads_there_and_back(browser, page):
    browser.open(f'{page}#lesson=window', 390, 844)
    browser.type_line(WINDOW[0])
    browser.click('#to_moment')
    equals('a button leads to what the line changed', browser.run(IN_VIEW % '#changes'), True)
    browser.click('#back_to_line')
    equals('and one back to the line', [browser.run(IN_VIEW % '#line'), browser.focused()], [True, 'line'])


def controls_are_large(browser, page):
    for link, lines in [('lesson=window', WINDOW), ('lesson=wrong&part=5', ['host cr 01:00.0 0 4']), ('board=kinds&as=firmware', []), ('board=server', ['web cw 0 4 2 3'])]:
        for width, height in SIZES:
            browser.open(f'{page}#{link}', width, height)
            browser.type_lines(lines)
            browser.run("for (const one of document.querySelectorAll('details')) one.open = true; document.querySelector('#transcript button.reply')?.click()")
            for name, find in [('no control is below 24 pixels', SMALL), ('no text is below 13 pixels', TINY), ('nothing is cut', CUT)]:
                equals(f'{name} in {link} at {width}', browser.run(find)[:5], [])


def lines_can_be_gone_through(browser, page):
    browser.open(f'{page}#lesson=window', 1440, 900)
    equals('the lines before a task can be gone through too', browser.text_of('step_told'), '6 lines ran')
    browser.type_lines(WINDOW)
    wanted = ['00:02.0 Command: 0x0000 → 0x0003', '00:02.0 io window: disabled, 0x1000 to 0x1fff → 0x1000 to 0x1fff',
              '00:02.0 mem window: disabled, 0xc0000000 to 0xc00fffff → 0xc0000000 to 0xc00fffff']
    found = browser.texts_of('#changes li')
    holds('what a line changed is told before and after', found[:3] == wanted and len(found) == 6 and found[3].startswith('− 01:00.0 (2.0/0.0) bar0'), found)
    equals('and marked in the tree', browser.signs_of('.change'), ['2.0 Δ 3'])
    equals('and in the bars', browser.counts_of(*BARS), [0, 0, 2])
    audit = browser.text_of('total')
    browser.press('F8')
    equals('a key goes back by a line', browser.text_of('step_told'), 'as after 8 of 9 lines')
    begins('to what it changed', browser.text_of('last'), WINDOW[1])
    equals('problems are as they were', browser.text_of('total'), '3 problems')
    command = FIELD % ('Command', 'Memory space')
    equals('so are registers, which nobody writes then', browser.run(f"[{command}.checked, {command}.disabled]"), [False, True])
    equals('what that line changed is told', browser.texts_of('#changes li')[0], '00:02.0 I/O Base, I/O Limit: 0x0000 → 0x1010')
    equals('its bytes are marked', browser.run("[...document.querySelectorAll('#bytes .changed')].map(one => one.title)"), ['0x1c: I/O Base', '0x1d: I/O Limit'])
    equals('and is not said to be done', browser.text_of('task_state'), 'An earlier moment')
    browser.click('#step_back')
    browser.write('step', 2)
    equals('a slider goes anywhere', browser.text_of('step_told'), 'as after 2 of 9 lines')
    begins('with what it changed', browser.text_of('last'), 'host cw 01:00.0 0x10 4 0xc0000000')
    browser.press('F9')
    equals('a key goes on', browser.text_of('step_told'), 'as after 3 of 9 lines')
    answers(browser, 'a line runs where one is', 'host ir 0x1000 4', 'host: 0xdeadbeef')
    equals('behind the lines before it', browser.text_of('step_told'), '10 lines ran')
    holds('and all is as it is', browser.text_of('total') == audit == 'ok' and browser.text_of('task_state') == 'Done.', browser.text_of('total'))
    browser.open(f'{page}#lesson=wrong&part=1', 1440, 900)
    holds('lines that are not shown can not be gone through', browser.run("document.getElementById('step_back').disabled"))
    browser.type_line('host cw 00:02.0 0x22 2 0xc030')
    equals('a window that grows is told', browser.texts_of('#changes li')[1], '00:02.0 mem window: 0xc0000000 to 0xc02fffff → 0xc0000000 to 0xc03fffff')
    equals('and drawn before and after', browser.counts_of(*BARS), [1, 0, 1])
    browser.open(page)
    browser.click('#leave')


def guests_lines_can_be_gone_through(browser, page):
    browser.open(f'{page}#lesson=move', 1440, 900)
    browser.type_line('web cw 0 0x10 4 0x90000000')
    wanted = ['01:00.0 Base Address Register 0: 0x80000000 → 0x90000000', '01:00.0 guest web, slot 0 bar0: 0x80000000 to 0x8001ffff → 0x90000000 to 0x9001ffff']
    equals("a guest's region that moves is told", browser.texts_of('#changes li'), wanted)
    equals('and drawn before and after', browser.counts_of('#maps .was-at', '#maps .joined.changed'), [1, 1])
    browser.type_line('host move web 0 store 2')
    contains('a move is told', browser.texts_of('#changes li'), '01:00.0 assigned to: guest web, slot 0 → guest store, slot 2')
    for key, name, owner, drawn in [('F8', 'before it the function is where it was', 'guest web, slot 0', 1), ('F9', 'and after it where it is', 'guest store, slot 2', 0)]:
        browser.press(key)
        holds(name, owner in browser.title_of('2.0/0.0') and browser.count_of('.joined') == drawn, browser.title_of('2.0/0.0'))
    browser.click('#leave')
    browser.open(f'{page}#story=Three guests share a server&now', 1440, 900)
    equals('remarks are no lines', browser.text_of('step_told'), '12 lines ran')
    begins('and the last line is told', browser.text_of('last'), '12 lines, the last of them host move store 2 desk 0')


# What is sent, and what stands at its stops.
WAYS = [('host mr 0xc0020000 4', ['bus 00: 00:02.0 forwards it: its memory window is 0xc0000000 to 0xc00fffff',
                                  'bus 01: 01:01.0 responds at offset 0x0 of its bar5, 0xc0020000 to 0xc0020fff']),
        ('host mr 0xc0100000 4', ["bus 00: 00:02.0 doesn't forward it: its memory window is 0xc0000000 to 0xc00fffff"]),
        ('host cr 01:01.0 0 4', ['bus 00: 00:02.0 forwards it: Secondary 01, Subordinate 01', 'bus 01: 01:01.0 responds']),
        ('host cr 02:00.0 0 4', ["bus 00: 00:02.0 doesn't forward it: Secondary 01, Subordinate 01"]),
        ('host ir 0x1000 4', ['bus 00: 00:02.0 forwards it: its I/O window is 0x1000 to 0x1fff', 'bus 01: 01:00.0 responds at offset 0x0 of its bar1, 0x1000 to 0x103f'])]


def a_cycle_can_be_followed(browser, page):
    browser.open(f'{page}#lesson=window', 1440, 900)
    browser.type_lines(WINDOW)
    for line, stops in WAYS:
        browser.type_line(line)
        browser.press('F4', *['ArrowRight'] * (len(stops) - 1))
        equals(f'the way of {line} is told stop by stop', browser.run(STOPS), stops)
    equals('who takes it is marked', browser.paths_of('#tree .took'), ['2.0/0.0'])
    equals('its address is marked in the bar', browser.count_of('#addresses [data-space=io] .asked-at'), 1)
    browser.press('ArrowLeft')
    holds('a key goes a stop back', len(browser.run(STOPS)) == 1, browser.run(STOPS))
    browser.press('Escape')
    equals('Escape leaves it', [browser.text_of('way'), browser.count_of('#tree .took, #tree .cycle')], ['', 0])
    equals('and the button that began it has the keys', browser.focused(), 'follow')
    browser.type_lines(['host iw 0xcf8 4 0x80010800', 'host ir 0xcfc 4'])
    browser.press('F4', 'ArrowRight')
    equals('a port of the latch goes as a configuration cycle', browser.run(STOPS)[-1:], ['bus 01: 01:01.0 responds'])


def register_bits_are_boxes(browser, page):
    browser.open(f'{page}#lesson=size', 1440, 900)
    browser.select('2.0/0.0')
    browser.type_in_field('bar0', 'base', '0xc0012345')
    equals('while one types, bits are as they would be read back', browser.labels_of(BITS), [f'bar0, 0x10: 0xc0000000, in bits {0xc0000000:032b}'])
    equals('each bit is of a kind', browser.counts_of('#bits .boxes .set', '#bits .boxes .wired', '#bits .boxes .kind'), [15, 13, 4])
    [told] = browser.texts_of(HINT)
    contains('what all ones read back is told, and why that is the size', told, 'reads back 0xfffe0000 in bar0', 'one more is 0x20000: 128 KB')
    equals('typing is no line yet', browser.count_of('#transcript .said'), 0)
    browser.select('2.0')
    browser.type_in_field('Memory', 'last', '0xc01fffff')
    equals('a window has Base and Limit', browser.labels_of(BITS), ['Base, 0x20: 0x0000, in bits 0000000000000000', f'Limit, 0x22: 0xc010, in bits {0xc010:016b}'])
    contains('its unit is told', browser.texts_of(HINT)[0], 'reads back 0xfff0 in Base and 0xfff0 in Limit', 'units of 1 MB')
    browser.run(f"{FIELD % ('Command', 'Memory space')}.focus()")
    contains('Command has switches and wired bits', browser.texts_of(HINT)[0], 'Command: bits', 'are hardwired')
    browser.open(f'{page}#board=server', 1440, 900)
    holds("a guest's registers have bits too", browser.count_of(BITS) > 0)


def the_line_is_a_key_away(browser, page):
    browser.open(f'{page}#lesson=window', 1440, 900)
    browser.press_on('#task_title', 'F2')
    equals('a key leads from the lesson to the line', browser.focused(), 'line')
    contains('the key is shown', browser.text_of('to_line'), 'F2')
    browser.focus('#task_title')
    for count in range(12):
        browser.press('Tab')
        if browser.focused() == 'line':
            break
    holds('so do few Tabs', count < 11, count)


def refusals_have_reasons(browser, page):
    browser.open(f'{page}#board=main&as=firmware', 1280, 720)
    browser.type_line('host cr 00:02.0 0xg 4')
    equals('the word for which a line is refused is marked', browser.texts_of('#transcript mark'), ['0xg'])
    contains('and the reason told', browser.said_last('why'), "invalid offset '0xg'")
    browser.fill('host cr 00:02.0 mem')
    equals('a name that is typed is not told to be no number', browser.text_of('why'), "the offset: choose what 'mem' means from the list")
    edge = "getComputedStyle(document.getElementById('verdict')).borderLeftColor"
    fine = browser.run("(() => { const one = document.createElement('i'); one.style.color = 'var(--fine)'; document.body.append(one); return getComputedStyle(one).color; })()")
    holds('no green edge stands beside problems', browser.run(edge) != fine and browser.text_of('total') == '2 problems', browser.run(edge))
    browser.open(f'{page}#board=main', 1280, 720)
    browser.run("(() => { const one = document.getElementById('board'); one.value = one.value.replace('0x1234', '0x12g4'); one.dispatchEvent(new Event('input')); one.dispatchEvent(new Event('blur')); })()")
    told = browser.text_of('verdict')
    holds('of a file that is no TOML the line is told, and no other reason', told.startswith('101 not TOML: ') and 'UTF-8' not in told and 'line 9' in told, told)


def a_lesson_says_what_its_boxes_do(browser, page):
    browser.open(f'{page}#lesson=window', 1280, 720)
    equals('the box for boards says whose board it is', browser.run("document.getElementById('boards').selectedOptions[0].textContent"), "the lesson's own")
    titles = browser.run("['again', 'leave', 'restart', 'boards'].map(name => document.getElementById(name).title.length > 20)")
    equals('what begins again and what ends the lesson say so', titles, [True] * 4)
    browser.click('#leave')


def tasks_go_elsewhere(browser, page):
    browser.open(f'{page}#board=main&as=firmware', 1280, 720)
    browser.type_line('host cw 00:02.0 0x18 4 0x00010100')
    browser.run("navigator.clipboard && (navigator.clipboard.writeText = async text => { window.copied = text; })")
    browser.task_link('Place it', 'Two lines,\nwith `01:00.0`.', 'host cr 01:00.0 0x10 4 -> host: 0xc0000000\naudit: ok')
    contains('a link of a page from a disk is said to fit any copy', browser.text_of('handed'), 'any copy of this page')
    copied, fragment = browser.run("window.copied ?? null"), browser.run('location.hash')
    holds('what is copied has no place on a disk', copied in (None, fragment), copied)
    file = browser.saved_file('#own_file')
    holds('a task is kept as a board file', '#title Place it\n#text Two lines,\n#text with' in file and file.endswith('#end\n'), file)
    for way, act in [('pasted', lambda: browser.write('paste', f'file:///elsewhere/pciguest.html{fragment}')),
                     ('opened as a file', lambda: browser.open_file(json.dumps(file), 'task.toml'))]:
        browser.open(f'{page}#board=server', 1280, 720)
        act()
        browser.until("document.getElementById('task_title').textContent === 'Task: Place it'")
        holds(f'a task that is {way} begins', browser.text_of('task_title') == 'Task: Place it' and 'Two lines' in browser.text_of('task_text'), browser.text_of('task_title'))
        browser.type_line('host cw 01:00.0 0x10 4 0xc0000000')
        holds(f'a task that is {way} is judged', browser.text_of('task_state') == 'Done.', browser.text_of('goals'))
        browser.click('#leave')


def a_lecture_looks_well(browser, page, folder, shot):
    views = [('window', 'lesson=window', WINDOW[:2], []), ('past', 'lesson=window', WINDOW, ['F8']), ('way', 'lesson=window', [*WINDOW, 'host mr 0xc0020000 4'], ['F4', 'ArrowRight']),
             ('guests', 'lesson=move', ['web cw 0 0x10 4 0x90000000'], [])]
    for name, link, lines, keys in views:
        for width, height in SIZES:
            browser.open(f'{page}#{link}', width, height if width > 400 else 2600)
            browser.type_lines(lines)
            browser.press(*keys)
            is_painted_well(browser, f'{name} of a lecture at {width}')
            browser.picture(folder / f'{shot}lecture_{name}_{width}.png')
    browser.click('#leave')


ALL = [all_is_in_one_view, a_phone_leads_there_and_back, controls_are_large, lines_can_be_gone_through, guests_lines_can_be_gone_through, a_cycle_can_be_followed,
       register_bits_are_boxes, the_line_is_a_key_away, refusals_have_reasons, a_lesson_says_what_its_boxes_do, tasks_go_elsewhere]
