"""Headless Firefox, as page/tests/browse uses it: by Marionette, its own protocol."""
import base64
import json
import pathlib
import shutil
import socket
import subprocess
import sys
import time

from reader import Reader

PREFERENCES = {'browser.shell.checkDefaultBrowser': False, 'datareporting.policy.dataSubmissionEnabled': False, 'app.update.enabled': False,
               'browser.startup.page': 0, 'widget.gtk.overlay-scrollbars.enabled': False, 'toolkit.telemetry.enabled': False, 'marionette.port': 0}
KEYS = {'Enter': '\ue007', 'Escape': '\ue00c', 'ArrowRight': '\ue014', 'ArrowDown': '\ue015', 'ArrowUp': '\ue013', 'ArrowLeft': '\ue012',
        'Tab': '\ue004', 'F2': '\ue032', 'F4': '\ue034', 'F8': '\ue038', 'F9': '\ue039'}
# Makes the page's place in the window as wide and high as is asked, as a window of its own can't be narrow.
PLACE = """const [width, height, dark] = arguments; const one = gBrowser.selectedBrowser;
  for (const [name, value] of [['width', width], ['height', height]]) for (const kind of ['', 'min-', 'max-']) one.style.setProperty(kind + name, `${value}px`);
  Services.prefs.setIntPref('layout.css.prefers-color-scheme.content-override', dark ? 0 : 1);"""


class Browser(Reader):
    def __init__(self, room):
        lines = [f'user_pref({json.dumps(name)}, {json.dumps(value)});\n' for name, value in PREFERENCES.items()]
        (pathlib.Path(room) / 'user.js').write_text(''.join(lines))
        words = [shutil.which('firefox-esr') or shutil.which('firefox'), '--headless', '--marionette', '--remote-allow-system-access', '--no-remote', '--profile', room,
                 '--width', '1500', '--height', '2800']
        self.process = subprocess.Popen(words, stderr=subprocess.DEVNULL, stdout=subprocess.DEVNULL)
        self.socket, self.rest, self.count = socket.create_connection(('127.0.0.1', self.port(room))), b'', 0
        self.message()
        self.ask('WebDriver:NewSession', capabilities={'alwaysMatch': {'acceptInsecureCerts': True}})
        self.ask('WebDriver:SetTimeouts', script=300000, pageLoad=300000, implicit=0)

    def port(self, room):
        file = pathlib.Path(room) / 'MarionetteActivePort'
        for _ in range(600):
            if file.exists() and file.read_text().strip():
                return int(file.read_text())
            time.sleep(0.1)
        sys.exit('Firefox does not come up')

    def message(self):
        """A message: its length, a colon, and a text."""
        while b':' not in self.rest or len(self.rest) < self.rest.index(b':') + 1 + int(self.rest[:self.rest.index(b':')]):
            came = self.socket.recv(1 << 20)
            if not came:
                sys.exit('Firefox has ended')
            self.rest += came
        length, rest = self.rest.split(b':', 1)
        text, self.rest = rest[:int(length)], rest[int(length):]
        return json.loads(text)

    def told(self, name, **parameters):
        """What an answer says, and what is wrong or None."""
        self.count += 1
        text = json.dumps([0, self.count, name, parameters]).encode()
        self.socket.sendall(str(len(text)).encode() + b':' + text)
        _, _, wrong, answer = self.message()
        return answer, wrong

    def ask(self, name, **parameters):
        answer, wrong = self.told(name, **parameters)
        if wrong:
            sys.exit(f'{name}: {wrong["message"]}')
        return answer

    def quit(self):
        self.ask('Marionette:Quit', flags=['eForceQuit'])

    def run(self, script):
        """What an expression is, in the page, whose policy forbids eval; of statements, nothing."""
        answer, wrong = self.told('WebDriver:ExecuteScript', script=f'return (\n{script}\n);', args=[])
        if wrong and 'SyntaxError' in wrong['message']:
            return self.ask('WebDriver:ExecuteScript', script=script, args=[])['value']
        if wrong:
            sys.exit(f'{script}: {wrong["message"]}')
        return answer['value']

    def go(self, address, width, height, scheme):
        self.ask('Marionette:SetContext', value='chrome')
        self.ask('WebDriver:ExecuteScript', script=PLACE, args=[width, height, scheme == 'dark'])
        self.ask('Marionette:SetContext', value='content')
        for one in ('about:blank', address):
            self.ask('WebDriver:Navigate', url=one)

    def insert(self, text):
        self.run(f"document.execCommand('insertText', false, {json.dumps(text)})")

    def press(self, *keys):
        acts = [{'type': kind, 'value': KEYS.get(key, key)} for key in keys for kind in ('keyDown', 'keyUp')]
        self.ask('WebDriver:PerformActions', actions=[{'type': 'key', 'id': 'keys', 'actions': acts}])

    def mouse(self, x, y, click=False):
        acts = [{'type': 'pointerMove', 'x': round(x), 'y': round(y), 'origin': 'viewport'}]
        acts += [{'type': kind, 'button': 0} for kind in ('pointerDown', 'pointerUp') if click]
        self.ask('WebDriver:PerformActions', actions=[{'type': 'pointer', 'id': 'mouse', 'parameters': {'pointerType': 'mouse'}, 'actions': acts}])

    def picture(self, file):
        file.write_bytes(base64.b64decode(self.ask('WebDriver:TakeScreenshot', full=False)['value']))
