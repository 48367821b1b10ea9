"""What a reader does with the page, and sees on it, in any browser, for page/tests/browse."""
import contextlib
import json
import subprocess
import sys
import tempfile
import time

# Numbers in front of paths, which the page adds to the library's texts.
PLAIN = r".replace(/[0-9a-f]{2}:[0-9a-f]{2}\.[0-7] \(([\d./]+)\)/g, '$1')"
# The field of the selected function that has this name.
FIELD = """(() => { const set = [...document.querySelectorAll('#fields fieldset')].find(one => one.textContent.startsWith('%s'));
  return [...set.querySelectorAll('label')].find(one => one.textContent.trim() === '%s').querySelector('input'); })()"""
# Keeps what the page would save as a file.
SAVES = "(() => { window.saved = null; URL.createObjectURL = blob => { window.saved = blob; return '#'; }; HTMLAnchorElement.prototype.click = () => {}; })()"
OPENS = """(() => { const files = new DataTransfer(), open = document.getElementById('open');
  files.items.add(new File([%s], '%s'));
  open.files = files.files;
  const began = performance.now();
  open.dispatchEvent(new Event('change'));
  return performance.now() - began; })()"""
PASTE = """(() => { const data = %s, dataType = 'text/plain', clipboardData = new DataTransfer();
  clipboardData.setData(dataType, data);
  return document.getElementById('%s').dispatchEvent(new ClipboardEvent('paste', { data, dataType, clipboardData, bubbles: true, cancelable: true })); })()"""
WHOLE = """(() => { const one = document.querySelector('%s'), box = one.getBoundingClientRect();
  const at = [[0.5, 0.5], [0.1, 0.2], [0.9, 0.8]].map(([x, y]) => document.elementFromPoint(box.left + x * box.width, box.top + y * box.height));
  return box.height > 0 && box.top >= 0 && box.bottom <= innerHeight && at.every(found => one.contains(found)); })()"""


def chip_of(path):
    return f'#tree [data-path="{path}"]'


class Reader:
    """Uses a page in a browser, whose class has `process`, `quit`, `go`, `run`, `insert`, `press`, `mouse` and `picture`."""

    @classmethod
    @contextlib.contextmanager
    def begun(cls):
        """A browser with a folder of its own, which ends with the block."""
        with tempfile.TemporaryDirectory(ignore_cleanup_errors=True) as room:
            browser = cls(room)
            try:
                yield browser
            finally:
                browser.close()

    def close(self):
        """Lets it end with all its processes, which write into its folder until then."""
        try:
            self.quit()
            self.process.wait(60)
        except (OSError, subprocess.TimeoutExpired, SystemExit):
            self.process.kill()
            self.process.wait()

    def open(self, address, width=1100, height=1000, scheme='light'):
        """Opens a page in a window of this size, and waits until it shows a board."""
        self.go(address, width, height, scheme)
        if not self.until("document.readyState === 'complete' && document.getElementById('verdict')?.textContent !== ''", 1200):
            sys.exit(f'{address} does not come up')

    def text_of(self, name):
        return self.run(f"document.getElementById('{name}').textContent")

    def texts_of(self, find):
        return self.run(f"[...document.querySelectorAll('{find}')].map(one => one.textContent)")

    def plain_texts_of(self, find):
        return self.run(f"[...document.querySelectorAll('{find}')].map(one => one.textContent{PLAIN})")

    def count_of(self, find):
        return self.run(f"document.querySelectorAll('{find}').length")

    def counts_of(self, *finds):
        return [self.count_of(find) for find in finds]

    def value_of(self, name):
        return self.run(f"document.getElementById('{name}').value")

    def paths_of(self, find):
        return self.run(f"[...document.querySelectorAll('{find}')].map(one => one.dataset.path)")

    def labels_of(self, find):
        return self.run(f"[...document.querySelectorAll('{find}')].map(one => one.getAttribute('aria-label'))")

    def signs_of(self, find):
        """The functions of the tree that have a sign, each with the sign."""
        return self.run(f"[...document.querySelectorAll('#tree {find}')].map(one => `${{one.closest('.chip').dataset.path}} ${{one.querySelector('.mark').textContent}}`)")

    def title_of(self, path):
        """What the tree tells of a function that the mouse is put on."""
        return self.run(f"document.querySelector('{chip_of(path)}').title")

    def is_shown(self, name):
        return self.run(f"document.getElementById('{name}').checkVisibility()")

    def focused(self):
        return self.run('document.activeElement.id')

    def click(self, find):
        self.run(f"document.querySelector('{find}').click()")

    def focus(self, find):
        self.run(f"document.querySelector('{find}').focus()")

    def press_on(self, find, *keys):
        self.focus(find)
        self.press(*keys)

    def select(self, path):
        """Selects a function in the tree."""
        self.click(chip_of(path))

    def until(self, script, times=400):
        for _ in range(times):
            if self.run(script) is True:
                return True
            time.sleep(0.05)
        return False

    def seen(self, find):
        """Whether an element is whole in the window, with nothing above it: in no part that scrolled away, and behind nothing."""
        return self.run(WHOLE % find) is True

    def type_board(self, text):
        """Types a text in place of the board file, and waits until it is set up."""
        self.run("document.getElementById('board').focus(); document.getElementById('board').select()")
        self.insert(text)
        self.run("document.getElementById('board').blur()")

    def paste(self, name, text):
        """Pastes a text, and gives whether the page leaves it to the browser. Firefox takes the text from `data`, Chromium from `clipboardData`."""
        return self.run(PASTE % (json.dumps(text), name))

    def type_line(self, line):
        self.run("document.getElementById('line').focus({ preventScroll: true })")
        self.insert(line)
        self.press('Enter')

    def type_lines(self, lines):
        for line in lines:
            self.type_line(line)

    def type_offered(self):
        """Types the line that the empty box offers."""
        self.type_line(self.run("document.getElementById('line').placeholder"))

    def fill(self, text):
        """Types a text in place of what is in the line box, and leaves it there."""
        self.run("(() => { const one = document.getElementById('line'); one.value = ''; one.focus({ preventScroll: true }); one.dispatchEvent(new Event('input')); })()")
        self.insert(text)

    def write(self, name, text):
        self.run(f"(() => {{ const one = document.getElementById('{name}'); one.value = {json.dumps(text)}; one.dispatchEvent(new Event('input')); }})()")

    def choose(self, name, value):
        self.run(f"document.getElementById('{name}').value = '{value}'; document.getElementById('{name}').dispatchEvent(new Event('change'))")

    def new_link(self, kind):
        """The link that the page makes of its lines or state, `kept`, or of a task."""
        self.until(f"location.hash.startsWith('#{kind}=')")
        return self.run('location.href')

    def lines_link(self):
        self.click('#link')
        return self.new_link('kept')

    def task_link(self, title, text, goal):
        """Writes a task, and gives the link that hands it out."""
        self.run("document.getElementById('own').open = true")
        for name, words in [('own_title', title), ('own_text', text), ('own_goal', goal)]:
            self.write(name, words)
        return self.handed_link()

    def handed_link(self):
        self.run("document.getElementById('task_form').requestSubmit()")
        return self.new_link('task')

    def open_elsewhere(self, page, link):
        """Opens a link where another board was."""
        self.open(f'{page}#board=server')
        self.open(link)

    def open_task(self, link):
        self.open(link)
        self.until("document.getElementById('task_title').textContent !== ''")

    def saved_file(self, button):
        """The text of the file that the page saves when a button is clicked."""
        self.run(SAVES)
        self.click(button)
        self.until('window.saved !== null')
        return self.run('window.saved.text()')

    def open_file(self, contents, name='a_file'):
        """Opens a file with contents that a script gives. Gives the milliseconds that this takes."""
        return self.run(OPENS % (contents, name))

    def put_mouse(self, find, across, down, click=False):
        """Puts the mouse into an element, at a share of its width and so many pixels down."""
        x, y, width = self.run(f"(() => {{ const one = document.querySelector('{find}'); one.scrollIntoView({{ block: 'center' }}); "
                               "const b = one.getBoundingClientRect(); return [b.x, b.y, b.width]; })()")
        self.mouse(x + width * across, y + down, click)

    def said_last(self, name='said'):
        return self.run(f"[...document.querySelectorAll('#transcript .{name}')].at(-1)?.textContent{PLAIN.replace('.', '?.', 1)}")

    def switch(self, group, name):
        self.run(f'{FIELD % (group, name)}.click()')

    def type_in_field(self, group, name, value):
        self.run(f'{FIELD % (group, name)}.focus(); {FIELD % (group, name)}.select()')
        self.insert(value)

    def write_field(self, group, name, value):
        """Writes a field of the selected function by keys."""
        self.type_in_field(group, name, value)
        self.press('Enter')
