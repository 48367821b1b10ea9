"""The page as a page of the web, in any browser, for page/tests/browse: under a server's policy, without scripts, and what it says of itself; the edges
of its controls; and where the keys are while one goes through lines."""
import contextlib
import http.server
import pathlib
import re
import sys
import threading

from tried import PAGE, TOP, WINDOW, begins, contains, equals, holds

POLICY = re.search(r"^```\n(Content-Security-Policy: .*)\n```$", (TOP / 'docs/PAGE.md').read_text(), re.M)[1].split(': ', 1)[1]
# The least contrast of the edges of controls with what is around them.
EDGES = """(() => {
  const pen = Object.assign(document.createElement('canvas'), { width: 1, height: 1 }).getContext('2d', { willReadFrequently: true });
  const light = colour => { pen.clearRect(0, 0, 1, 1); pen.fillStyle = colour; pen.fillRect(0, 0, 1, 1); const [r, g, b, a] = pen.getImageData(0, 0, 1, 1).data;
    const [x, y, z] = [r, g, b].map(one => one / 255).map(one => (one <= 0.04045 ? one / 12.92 : ((one + 0.055) / 1.055) ** 2.4)); return a === 255 ? 0.2126 * x + 0.7152 * y + 0.0722 * z : null; };
  const ground = one => { for (; one; one = one.parentElement) { const found = light(getComputedStyle(one).backgroundColor); if (found !== null) return found; } };
  const ratio = (a, b) => (Math.max(a, b) + 0.05) / (Math.min(a, b) + 0.05);
  return [...document.querySelectorAll('button, select, input:not([type=radio], [type=checkbox], [type=range], [type=file]), .file, .text')].filter(one => one.checkVisibility() && parseFloat(getComputedStyle(one).borderTopWidth) > 0)
    .map(one => [ratio(light(getComputedStyle(one).borderTopColor), ground(one.parentElement)), one.id || one.textContent.slice(0, 30)]).filter(([edge]) => edge < 3);
})()"""


@contextlib.contextmanager
def served(policy):
    """The page on a server of this machine, under a policy."""
    class Handler(http.server.BaseHTTPRequestHandler):
        def do_GET(self):
            body = pathlib.Path(sys.argv[1]).read_bytes()
            self.send_response(200)
            for name, value in [('Content-Type', 'text/html; charset=utf-8'), ('Content-Length', len(body)), ('Content-Security-Policy', policy)]:
                self.send_header(name, str(value))
            self.end_headers()
            self.wfile.write(body)

        def log_message(self, *words):
            pass

    with http.server.ThreadingHTTPServer(('127.0.0.1', 0), Handler) as server:
        threading.Thread(target=server.serve_forever, daemon=True).start()
        try:
            yield f'http://127.0.0.1:{server.server_port}/pciguest.html'
        finally:
            server.shutdown()


def policies_are_met_or_told(browser, page):
    with served(POLICY) as address:
        browser.open(f'{address}#lesson=window')
        browser.type_lines(WINDOW)
        equals('the page works under the policy of its document', browser.text_of('task_state'), 'Done.')
        browser.run('localStorage.clear()')
    with served("default-src 'self'") as address:
        browser.go(address, 1280, 720, 'light')
        browser.until("document.readyState === 'complete'")
        told = browser.text_of('unstarted')
        holds("under 'self' it says why it doesn't start", "doesn't start" in told and "'wasm-unsafe-eval'" in told and browser.run("getComputedStyle(document.getElementById('unstarted')).visibility") == 'visible'
              and browser.seen('#unstarted'), told)


def the_page_says_what_it_is(browser, page):
    browser.open(f'{page}#board=main')
    number = re.search(r'PCIGUEST_VERSION "(.*)"', (TOP / 'library/pciguest.h').read_text())[1]
    contains('it has a version', browser.text_of('version'), f'pciguest {number}')
    begins('a description', browser.run("document.querySelector('meta[name=description]').content"), 'Learn PCI')
    begins('an icon', browser.run("document.querySelector('link[rel=icon]').href"), 'data:image/svg+xml,')
    begins('and a policy', browser.run("document.querySelector('meta[http-equiv]').content"), "default-src 'none'")
    contains('without scripts it says so', (PAGE / 'page.html').read_text(), '<noscript><p class="wrong">This page needs JavaScript')


def edges_can_be_seen(browser, page):
    for scheme in ['light', 'dark']:
        for link in ['lesson=window', 'board=server', 'board=main&as=firmware']:
            browser.open(f'{page}#{link}', 1280, 720, scheme)
            browser.run("for (const one of document.querySelectorAll('details')) one.open = true; document.getElementById('unfold').click()")
            equals(f'the edges of controls of {link} reach 3:1 in the {scheme} theme', browser.run(EDGES)[:4], [])


def keys_and_success_keep_their_place(browser, page):
    browser.open(f'{page}#lesson=window', 1280, 720)
    browser.type_lines(WINDOW)
    for _ in range(9):
        browser.press_on('#step_back', 'F8')
    equals('the button keeps the keys at the first line', [browser.focused(), browser.text_of('step_told')], ['step_back', 'as after 0 of 9 lines'])
    equals('an earlier moment is not said to be done', [browser.text_of('task_state'), browser.count_of('#dock.done')], ['An earlier moment', 0])
    browser.choose('step', 9)
    browser.write('step', 9)
    equals('and the present one is', browser.text_of('task_state'), 'Done.')
    drawn = browser.run("""[...document.querySelectorAll('#addresses .window')].map(one => [one.x.baseVal.value, one.x.baseVal.value + one.width.baseVal.value, one.ownerSVGElement.width.baseVal.value])""")
    holds('windows have both edges', drawn != [] and all(left >= 0.5 and right <= width - 0.5 for left, right, width in drawn), drawn)
    browser.run('localStorage.clear()')


def slips_are_told(browser, page):
    browser.open(f'{page}#board=main')
    for text, wanted in [('host cr 00:02.0 18 4', 'did you mean 0x18?'), ('host cr 00:02.0 20 4', 'did you mean 0x20?'), ('a mr c0000000', 'did you mean 0xc0000000?'),
                         ('a mw 0x80000000 8 0x1122334455667788', 'the width is 1, 2 or 4 bytes, not 8')]:
        browser.fill(text)
        contains(f'{text} is told while it is typed', browser.text_of('why'), wanted)
    browser.fill('')
    browser.type_line('a mw 0x80000000 8 0x1122334455667788')
    equals('and of its reply', browser.said_last('why'), 'the width is 1, 2 or 4 bytes, not 8')


ALL = [policies_are_met_or_told, the_page_says_what_it_is, edges_can_be_seen, keys_and_success_keep_their_place, slips_are_told]
