"""Scripts, lines that are taken back, registers that follow the line, and the route of an access, in any browser, for page/tests/browse."""
import json

from tried import BITS, STOPS, WINDOW, ends, equals, holds

SAID = '#transcript .said'
GO_ON = "getComputedStyle(document.getElementById('go_on')).visibility"


def scripts_come_and_go(browser, page, size):
    browser.open(f'{page}#lesson=window', *size)
    browser.paste('line', '\n'.join(WINDOW))
    equals('several lines that are pasted run', [browser.texts_of(SAID), browser.text_of('task_state')], [WINDOW, 'Done.'])
    text = browser.saved_file('#save_lines')
    holds('lines are saved, with those before them', text.endswith('\n'.join(WINDOW) + '\n') and text.startswith('# The bridge is numbered'), text)
    browser.click('#again')
    browser.open_file(json.dumps('\r\n'.join(WINDOW[:2])), 'lines.script')
    browser.until(f"document.querySelectorAll('{SAID}').length === 2")
    equals('a script file runs', browser.texts_of(SAID), WINDOW[:2])


def lines_are_taken_back(browser, page, size):
    browser.open(f'{page}#lesson=window', *size)
    equals('at the present there is nothing to go on from', browser.run(GO_ON), 'hidden')
    browser.type_lines(WINDOW)
    browser.click('#undo')
    equals('a line is taken back', [browser.texts_of(SAID), browser.text_of('task_state')], [WINDOW[:2], '2 of 6 conditions met'])
    browser.press('F8')
    equals('where one went back one can go on', browser.run(GO_ON), 'visible')
    browser.click('#go_on')
    equals('which forgets the lines after it', [browser.texts_of(SAID), browser.text_of('step_told')], [WINDOW[:1], '7 lines ran'])
    browser.type_lines(WINDOW[1:])
    equals('and the lesson can be done from there', browser.text_of('task_state'), 'Done.')
    browser.open(f'{page}#board=main', *size)
    browser.click('#undo')
    equals('where no line ran none is taken back', browser.text_of('step_told'), 'no line has run')


def registers_follow_the_line(browser, page, size):
    browser.open(f'{page}#lesson=size', *size)
    equals('the bridge is selected first', browser.value_of('chosen'), '2.0')
    browser.fill('host cw 01:00.0 0x10 4 0xc0012345')
    equals('a line selects its function', [browser.value_of('chosen'), browser.focused()], ['2.0/0.0', 'line'])
    equals('and shows the bits of its register', browser.labels_of(BITS), [f'bar0, 0x10: 0xc0000000, in bits {0xc0000000:032b}'])
    browser.fill('host cw 00:02.0 0x20 4 0xc010c000')
    wanted = [f'Base, 0x20: 0xc000, in bits {0xc000:016b}', f'Limit, 0x22: 0xc010, in bits {0xc010:016b}']
    equals('a line that writes two registers shows both', browser.labels_of(BITS), wanted)
    equals('nothing has run', browser.texts_of(SAID), [])
    browser.open(f'{page}#lesson=move', *size)
    browser.fill('store cr 0 0x24 4')
    equals("a guest's line selects the function in its slot", browser.value_of('chosen'), '2.0/1.0')


def the_route_is_lit(browser, page, size):
    browser.open(f'{page}#lesson=window', *size)
    browser.type_lines([*WINDOW, 'host mr 0xc0020000 4'])
    browser.press('F4', 'ArrowRight')
    equals('the edges of the route are lit', browser.paths_of('#tree .passed'), ['2.0', '2.0/1.0'])
    lit = browser.run("getComputedStyle(document.querySelector('#tree [data-path=\"2.0/1.0\"]').parentElement, '::before').borderTopWidth")
    equals('as lines that are thicker', lit, '4px')
    browser.press('ArrowLeft')
    equals('down to where it is', browser.paths_of('#tree .passed'), ['2.0'])
    browser.open(f'{page}#lesson=move', *size)
    browser.type_line('web mr 0x80000010 4')
    browser.press('F4')
    ends("a guest's address is followed to the board's", browser.texts_of('#way .unit')[0], 'address 0x80000010 of web, 0xc0000010 on the board')
    browser.press('ArrowRight')
    ends('and down', browser.run(STOPS)[-1], '01:00.0 responds at offset 0x10 of its bar0, 0xc0000000 to 0xc001ffff')
    browser.type_line('web cr 0 0 4')
    browser.press('F4')
    ends('so is its slot', browser.texts_of('#way .unit')[0], 'slot 0 of web, configuration 01:00.0 on the board')
    browser.type_line('web mr 0x70000000 4')
    equals('what its regions do not have goes nowhere', browser.run("document.getElementById('follow').hidden"), True)


ALL = [scripts_come_and_go, lines_are_taken_back, registers_follow_the_line, the_route_is_lit]
