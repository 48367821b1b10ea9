"""What students hand in and lecturers get, in any browser, for page/tests/browse: a link with a name, which changes nobody's progress but its maker's; a
command that judges many links; and task files that were written by hand."""
import json
import shutil
import subprocess
import sys

from tried import PAGE, TOP, begins, contains, equals, holds

READ = ['host cr 01:00.0 0 4', 'host cr 00:02.0 0x18 4', 'host cr 00:02.0 0x20 4', 'host mr 0xc0000000 4']
DONE = "localStorage.getItem('pciguest-lessons')"


def link_with(browser, page, lesson, lines, name):
    browser.open(f'{page}#{lesson}')
    browser.type_lines(lines)
    browser.write('by', name)
    return browser.lines_link()


def another_link_changes_no_progress(browser, page):
    link = link_with(browser, page, 'lesson=read', READ, 'Ada Example')
    browser.run('localStorage.clear()')
    browser.open(f'{page}#board=server')
    browser.open(link)
    browser.until("document.getElementById('task_state').textContent === 'Done.'")
    equals("another's lesson is shown as it was left", [browser.text_of('task_title'), browser.text_of('task_state')], ['Lesson 1: Read a board', 'Done.'])
    begins('with the name in the link', browser.text_of('kept_told'), 'These are the lines of Ada Example.')
    equals("and the opener's progress stays", browser.run(DONE), '[]')
    browser.open(page)
    equals('so it does when the page is opened again', [browser.text_of('task_state'), browser.run(DONE)], ['Done.', '[]'])
    browser.click('#again')
    browser.type_lines(READ)
    equals('what the opener does then counts', browser.run(DONE), '["read"]')
    browser.run('localStorage.clear()')


def many_links_are_judged(browser, page):
    links = [link_with(browser, page, 'lesson=read', READ[:3], 'Ada'), link_with(browser, page, 'lesson=number', ['host cr 01:00.0 0 4', 'host cw 00:02.0 0x18 4 0x00050500', 'host cr 05:00.0 0 4'], 'Ben'),
             link_with(browser, page, 'lesson=wrong&part=2', ['host cw 00:03.0 0x20 2 0xc040'], ''), link_with(browser, page, 'lesson=live', ['web cr 0 0x10 4'], 'Eve'), 'nothing']
    browser.run('localStorage.clear()')
    if shutil.which('node') is None:
        print('Node is not here, so no links were judged')
        return
    told = subprocess.run([PAGE / 'hand_in', sys.argv[1], '/dev/stdin'], input='\n'.join(links), capture_output=True, text=True)
    rows = [line.split('\t') for line in told.stdout.splitlines()]
    equals('each link has a row', [row[:4] for row in rows], [['name', 'lesson', 'done', 'met'], ['Ada', '1 Read a board', 'no', '3 of 4'], ['Ben', '2 Number a bridge by hand', 'yes', '3 of 3'],
           ['', '5 Find what is wrong, Firmware 2', 'yes', '2 of 2'], ['Eve', '11 A guest moves live', 'no', '1 of 6'], ['', '', 'no', '']])
    contains("that says what isn't met", told.stdout, "You read the first four bytes of the card's memory", 'not a link of the page: nothing')


def task_files_by_hand_have_a_frame(browser, page):
    board = (TOP / 'docs/lessons/board.toml').read_text()
    for what, text, wanted in [('no frame', f'{board}#title A\n#text B\n#goal host cr 00:02.0 0 2 -> host: 0x1b36\n', 'no line "#pciguest-state guests"'),
                               ('no end', f'{board}#pciguest-state firmware\n#title A\n#goal audit: ok\n', 'no line "#end" after it')]:
        browser.open(f'{page}#board=server')
        browser.open_file(json.dumps(text), 'task.toml')
        browser.until("document.getElementById('kept_told').textContent !== ''")
        holds(f'a task file with {what} is told', wanted in browser.text_of('kept_told') and browser.seen('#kept_told'), browser.text_of('kept_told'))
        begins('and not taken as a board', browser.text_of('verdict'), 'Set up: 8 endpoints')
    browser.open_file(json.dumps(f'{board}#pciguest-state firmware\n#title A\n#text B\n#goal audit: ok\n#end\n'), 'task.toml')
    browser.until("document.getElementById('task_title').textContent === 'Task: A'")
    equals('one that is whole begins', browser.text_of('task_title'), 'Task: A')
    browser.run('localStorage.clear()')


ALL = [another_link_changes_no_progress, many_links_are_judged, task_files_by_hand_have_a_frame]
