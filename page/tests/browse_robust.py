"""What the page does with what it can't take, and how one gets in, in any browser, for page/tests/browse: files that are too large, addresses that ask
for what isn't there, a browser that can't run it, typing in a large file; and the first sentence, the titles, the menu, the legend and the notes."""
import json

from tried import SIZES, TOP, begins, contains, equals, holds

TOLD = "document.getElementById('kept_told').textContent"
LESSONS = len([*(TOP / "docs/lessons").glob("[0-9]*.md")])
COMMENTS = "'# a comment of some forty characters ....\\n'.repeat(%d)"


def large_files_are_refused(browser, page, size):
    browser.open(f'{page}#board=main', *size)
    before = browser.run("document.getElementById('board').value.length")
    for length, named in [(100 << 20, '100.0 MB'), ((1 << 20) + 1, '1.0 MB')]:
        browser.run(f"{TOLD} = ''")
        took, told = browser.open_file(f'new Uint8Array({length})', 'large.toml'), browser.text_of('kept_told')
        holds(f'a file of {length} bytes is refused at once', f"large.toml isn't opened: {named} is too large" in told and took < 1000 and browser.seen('#kept_told'), [told, took])
        equals('and the board stays', browser.run("document.getElementById('board').value.length"), before)
    browser.run(f"{TOLD} = ''")
    pasted = browser.paste('board', ' ' * (2 << 20))
    holds('a text that is too large is not pasted', pasted is False and 'too large' in browser.text_of('kept_told'), browser.text_of('kept_told'))


def a_file_of_many_lines_is_plain(browser, page):
    for what, more, count in [('comments', COMMENTS % 24000, '24,'), ('empty lines', "'\\n'.repeat(1000000)", '1,000,')]:
        browser.open(f'{page}#board=main')
        browser.run("document.getElementById('verdict').textContent = ''")
        began = browser.run('performance.now()')
        browser.open_file(f"document.getElementById('board').value + {more}")
        browser.until("document.getElementById('verdict').textContent !== ''")
        browser.run('new Promise(done => requestAnimationFrame(() => requestAnimationFrame(() => done(0))))')
        took = browser.run('performance.now()') - began
        begins(f'a file of nearly 1 MB of {what} is opened', browser.text_of('verdict'), 'Set up: 3 endpoints')
        holds(f'in less than 5 seconds with {what}', took < 5000, took)
        begins(f'its first lines are shown of {what}', browser.text_of('plain'), f'This file has {count}')
        equals('and are not edited', browser.run("[document.getElementById('board').readOnly, document.getElementById('board').value.split('\\n').length]"), [True, 1000])
        print(f'a file of nearly 1 MB of {what} is opened in {took:.0f} ms')
        browser.choose('boards', 'server')
        equals('another board is edited', [browser.run("document.getElementById('board').readOnly"), browser.is_shown('plain')], [False, False])
    browser.run('localStorage.clear()')


SCRIPT = "'a cr 0 0 4\\n'.repeat(%d)"
TOLD_RUNNING = "document.getElementById('running').checkVisibility() && / of 80,000 lines ran$/.test(document.getElementById('running_told').textContent)"


def a_long_script_can_be_stopped(browser, page):
    browser.open(f'{page}#board=main')
    took = browser.open_file(SCRIPT % 80000, 'long.script')
    holds('the page tells how far a long script is', took < 1000 and browser.until(TOLD_RUNNING), [took, browser.text_of('running_told')])
    browser.click('#stop')
    browser.run('new Promise(done => setTimeout(done, 300))')
    ran = [browser.text_of('step_told') for _ in range(2) if browser.run('new Promise(done => setTimeout(() => done(1), 200))')]
    holds('and can be stopped', ran[0] == ran[1] and not browser.is_shown('running') and int(ran[0].split()[0]) < 80000, ran)
    holds('the transcript shows the last lines', 0 < browser.count_of('#transcript .row') <= 2000, browser.count_of('#transcript .row'))
    browser.type_line('host cr 00:02.0 0 4')
    equals('and the page goes on', browser.said_last(), 'host cr 00:02.0 0 4')
    browser.press('F8')
    contains('one can go back through them', browser.text_of('step_told'), 'as after')
    browser.open(f'{page}#board=main')
    began = browser.run('performance.now()')
    browser.open_file(SCRIPT % 10000, 'long.script')
    browser.until("document.getElementById('step_told').textContent === '10000 lines ran'", 2000)
    print(f"a script of 10,000 lines runs in {browser.run('performance.now()') - began:.0f} ms")
    begins('all lines of a long script run', browser.text_of('step_told'), '10000 lines')
    equals('and are saved', browser.run("(() => { let saved; const create = URL.createObjectURL; URL.createObjectURL = blob => { saved = blob.size; return create(blob); }; "
                                       "HTMLAnchorElement.prototype.click = () => {}; document.getElementById('save_lines').click(); return saved; })()"), 10000 * 11)
    browser.run('localStorage.clear()')


def typing_waits(browser, page, size):
    browser.open(f'{page}#board=largest', *size)
    was = browser.text_of('verdict')
    browser.run("(() => { const one = document.getElementById('board'); one.focus(); one.setSelectionRange(0, 0); })()")
    took = browser.run("""(() => { const one = document.getElementById('board'), began = performance.now();
      for (let nth = 0; nth < 5; nth += 1) document.execCommand('insertText', false, '#'); return performance.now() - began; })()""")
    holds('letters that are typed are not each waited for', took < 1000, took)
    print(f'five letters in the largest board take {took:.0f} ms')
    browser.insert('x = 1\n')
    holds('the board is as it was while one types', browser.text_of('verdict') == was or took > 200, browser.text_of('verdict'))
    holds('and is set up again after that', browser.until(f"document.getElementById('verdict').textContent !== {json.dumps(was)} || document.getElementById('board').value.startsWith('#####x')"))
    browser.open(f'{page}#board=main', *size)
    browser.type_board((TOP / 'boards/server.toml').read_text())
    begins('whoever leaves the file box need not wait', browser.text_of('verdict'), 'Set up: 8 endpoints')


def unknown_addresses_are_explained(browser, page, size):
    for asked, wanted in [('story=nothing', 'This page has no story "nothing". It has: Three guests'), ('lesson=nothing', 'This page has no lesson "nothing". It has: read, number, size'),
                          ('board=nothing', 'This page has no board "nothing". It has: server, main'), ('state=abc', "This page doesn't know #state=.")]:
        browser.open(f'{page}#{asked}', *size)
        holds(f'#{asked} is explained', browser.text_of('kept_told').startswith(wanted) and browser.seen('#kept_told'), browser.text_of('kept_told'))
        browser.type_offered()
        contains(f'after #{asked} a board can be used', browser.text_of('transcript'), ': 0x')
    browser.open(f'{page}#board=main', *size)
    browser.run("location.hash = 'story=nothing'")
    holds('so it is where the address changes', browser.until(f"{TOLD}.startsWith('This page has no story')"), browser.text_of('kept_told'))
    browser.open(f'{page}#trust', *size)
    equals('a part of the page is no mistake', browser.text_of('kept_told'), '')


def there_is_a_way_in(browser, page, size):
    browser.open(f'{page}#board=main', *size)
    browser.run('localStorage.clear()')
    browser.open(f'{page}#board=main', *size)
    holds('a button begins', browser.seen('#begin') and browser.text_of('begin') == 'Begin lesson 1', browser.text_of('begin'))
    equals('all titles can be read', browser.run("[...document.querySelectorAll('#steps .title')].map(one => one.checkVisibility())"), [True] * LESSONS)
    for name in ['open', 'paste', 'link', 'state_link', 'state_file']:
        equals(f'{name} is behind one menu', browser.is_shown(name), False)
    browser.run("document.getElementById('legend').open = true")
    holds('a legend says what the marks mean', browser.run("[...document.querySelectorAll('#legend tr')].filter(one => one.checkVisibility()).length") >= 3)
    browser.click('#begin')
    equals('it begins lesson 1', browser.text_of('task_title'), 'Lesson 1: Read a board')
    equals("the lecturer's notes are not shown", browser.is_shown('notes'), False)


# For Chromium alone, which can be told what to run before the page.
WITHOUT = """WebAssembly.validate = () => false; WebAssembly.instantiate = async () => { throw new WebAssembly.CompileError('memory64'); };"""


def a_browser_may_be_unable(browser, page):
    browser.ask('Page.enable')
    script = browser.ask('Page.addScriptToEvaluateOnNewDocument', source=WITHOUT)['identifier']
    for width, height in SIZES:
        browser.go(page, width, height, 'light')
        browser.until("document.getElementById('unable')?.checkVisibility() === true")
        told = browser.text_of('unable')
        holds(f'without 64-bit memories the reason is at the top at {width}', told.startswith("This browser can't run the page: it has no WebAssembly memories with 64-bit")
              and browser.seen('#unable') and browser.run("document.querySelector('main').checkVisibility()") is False, told)
    browser.ask('Page.removeScriptToEvaluateOnNewDocument', identifier=script)


ONCE = [a_file_of_many_lines_is_plain, a_long_script_can_be_stopped]
ALL = [large_files_are_refused, typing_waits, unknown_addresses_are_explained, there_is_a_way_in]
