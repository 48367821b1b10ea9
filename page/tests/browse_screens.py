"""The page on the screens on which it is used, in any browser, for page/tests/browse: what is in view on a projector and on a phone, larger type, the
lecturer's notes, two pictures side by side, and a lesson on paper."""
import base64
import re

from tried import WINDOW, contains, equals, holds

# The parts of the page that aren't whole in the window.
OUT = """(names => names.filter(name => { const one = document.querySelector(name), b = one?.getBoundingClientRect();
  return !b || b.height === 0 || b.top < 0 || b.bottom > innerHeight || b.left < 0 || b.right > innerWidth; }))(%s)"""
# How high is what stands above the columns.
HEAD = "document.querySelector('main').getBoundingClientRect().top"
PRESS = "dispatchEvent(new KeyboardEvent('keydown', { altKey: true, code: '%s', cancelable: true }))"
# A window of its own for the notes, in a browser that opens none by itself.
WINDOWS = """(() => { const frame = document.createElement('iframe'); frame.hidden = true; document.body.append(frame);
  frame.contentWindow.close = () => { frame.dataset.closed = 'yes'; }; window.frame_of_notes = frame; window.open = () => frame.contentWindow; })()"""
NOTES = 'window.frame_of_notes.contentDocument.body.textContent'


def out_of_view(browser, *names):
    return browser.run(OUT % list(names))


def a_free_board_is_seen(browser, page):
    for width, height in [(1280, 720), (1440, 900)]:
        browser.open(page, width, height)
        browser.run('localStorage.clear()')
        browser.open(page, width, height)
        equals(f'a bar of addresses is in view at {width} by {height}', out_of_view(browser, '#addresses .bars', '#line', '#moment', '#begin'), [])
        holds(f'the tree begins in view at {width}', browser.run("document.querySelector('#tree .chip').getBoundingClientRect().bottom") < height)
        holds(f'what stands above takes less than 100 pixels at {width}', browser.run(HEAD) < 100, browser.run(HEAD))
        holds('the file is folded', browser.run("document.querySelector('.text').getBoundingClientRect().height") <= 2)
        fills = browser.run("""[...document.querySelectorAll('button')].filter(one => one.checkVisibility() && getComputedStyle(one).backgroundColor === getComputedStyle(document.getElementById('begin')).backgroundColor)
          .map(one => one.id)""")
        equals('one button is filled', fills, ['begin'])
        browser.click('#unfold')
        holds('a button unfolds the file', browser.run("document.querySelector('.text').getBoundingClientRect().height") > 100, browser.run("document.querySelector('.text').getBoundingClientRect().height"))


def a_projector_shows_all(browser, page):
    for width, height in [(1280, 720), (1280, 600), (1024, 480)]:
        for lesson in ['window', 'size']:
            browser.open(f'{page}#lesson={lesson}', width, height)
            browser.type_lines(WINDOW)
            equals(f'line, tree, bars and changes of {lesson} are in view at {width} by {height}',
                   out_of_view(browser, '#line', '#tree', '#addresses [data-space=io] .bars', '#addresses [data-space=mem] .bars', '#last', '#detail', '#task_state'), [])


def type_gets_larger(browser, page):
    browser.open(f'{page}#lesson=window', 1280, 720)
    sizes = "['#task_text p', '.chip', '#line', '#last'].map(find => parseFloat(getComputedStyle(document.querySelector(find)).fontSize))"
    before = browser.run(sizes)
    browser.run(PRESS % 'KeyL')
    holds('a key makes all type larger', all(big > 1.25 * small for big, small in zip(browser.run(sizes), before)), browser.run(sizes))
    equals('and the line stays in view', out_of_view(browser, '#line', '#moment'), [])
    browser.run(PRESS % 'KeyL')
    equals('and back', browser.run(sizes), before)


def notes_have_a_window(browser, page):
    browser.open(f'{page}#lesson=window', 1280, 720)
    browser.run(WINDOWS)
    browser.run(PRESS % 'KeyN')
    told = browser.run(NOTES)
    holds("a key opens the lecturer's notes in a window", told.startswith('Lesson 4: Open a windowShow') and 'Ask' in told and 'mistake' in told, told)
    equals('and never on the page', browser.is_shown('notes'), False)
    browser.run("document.querySelectorAll('#steps button')[0].click()")
    holds('they follow the lesson', browser.until(f"{NOTES}.startsWith('Lesson 1: Read a board')"), browser.run(NOTES))
    browser.run(PRESS % 'KeyN')
    equals('the key closes it', browser.run('window.frame_of_notes.dataset.closed'), 'yes')
    browser.open(f'{page}#lesson=window', 1280, 720)
    browser.run("window.open = () => null")
    browser.run(PRESS % 'KeyN')
    contains('a browser that opens no window is told of', browser.text_of('kept_told'), "doesn't let this page open a window")


def two_pictures_are_side_by_side(browser, page):
    browser.open(f'{page}#lesson=window', 1440, 900)
    browser.type_line(WINDOW[0])
    browser.click('#keep_picture')
    holds('a picture is kept', browser.until("document.querySelector('.picture') !== null"))
    browser.type_lines(WINDOW[1:])
    contains('it says of which moment it is', browser.run("document.querySelector('.picture p').textContent"), '7 lines ran', WINDOW[0])
    found = [browser.run(f"document.querySelector('{find} .bang') !== null") for find in ['.picture', '#pictures > .abreast']]
    equals('it stays as it was, beside the board as it is', found, [True, False])
    boxes = browser.run("['.picture .space', '#addresses .space'].map(find => { const b = document.querySelector(find).getBoundingClientRect(); return [b.left, b.right]; })")
    holds('they are side by side', boxes[0][1] <= boxes[1][0], boxes)
    browser.choose('boards', 'server')
    holds('so are two boards', browser.count_of('.picture .chip') == 4 and browser.count_of('#tree .chip') > 8)
    browser.click('.picture button')
    equals('a button closes it', browser.count_of('.picture'), 0)
    browser.run('localStorage.clear()')


def the_reply_is_beside_the_box(browser, page):
    for width, height in [(390, 844), (720, 450)]:
        browser.open(f'{page}#lesson=read', width, height)
        for line, reply in [('host cr 01:00.0 0 4', 'host: 0x100e8086'), ('host mr 0x10 4', 'host: 0xffffffff')]:
            browser.type_line(line)
            equals(f'the last reply is in view after {line} at {width} by {height}', [browser.text_of('last_reply'), browser.seen('#last_reply'), browser.seen('#line')], [f'Last reply: {reply}', True, True])
        browser.run("scrollTo(0, 0)")
        equals(f'the box stays in view at {width} by {height}', out_of_view(browser, '#line', '#task_state'), [])
        browser.run("scrollTo(0, 600)")
        equals('wherever one scrolls', out_of_view(browser, '#line', '#task_state'), [])
    browser.run('localStorage.clear()')


def lessons_fit_on_paper(browser, page, lessons):
    """For Chromium alone, which can be asked for a PDF."""
    for name, link, lines in lessons:
        for what, typed in [('not done', []), ('done', lines)]:
            browser.open(f'{page}#{link}')
            browser.type_lines(typed)
            paper = base64.b64decode(browser.ask('Page.printToPDF', paperWidth=8.27, paperHeight=11.69)['data'])
            pages = len(re.findall(rb'/Type\s*/Page\b', paper))
            holds(f'{name}, {what}, is on at most two pages', 1 <= pages <= 2, pages)
    browser.run('localStorage.clear()')


ALL = [a_free_board_is_seen, a_projector_shows_all, type_gets_larger, notes_have_a_window, two_pictures_are_side_by_side, the_reply_is_beside_the_box]
