"""Headless Chromium, as page/tests/browse uses it."""
import base64
import json
import os
import shutil
import subprocess
import sys

from reader import Reader

CODES = {'Tab': 9, 'Enter': 13, 'Escape': 27, 'ArrowLeft': 37, 'ArrowUp': 38, 'ArrowRight': 39, 'ArrowDown': 40, 'F2': 113, 'F4': 115, 'F8': 119, 'F9': 120, '+': 187}


class Browser(Reader):
    """Chromium's own protocol, over two pipes."""

    def __init__(self, room):
        (their_in, self.out), (self.back, their_out) = os.pipe(), os.pipe()
        words = [shutil.which('chromium'), '--headless=new', '--no-sandbox', '--disable-gpu',
                 f'--user-data-dir={room}', '--remote-debugging-pipe']
        self.process = subprocess.Popen(
            ['bash', '-c', 'exec "$@" 3<&"$IN" 4>&"$OUT"', 'bash', *words], pass_fds=[their_in, their_out],
            env={**os.environ, 'IN': str(their_in), 'OUT': str(their_out)}, stderr=subprocess.DEVNULL, stdout=subprocess.DEVNULL)
        os.close(their_in), os.close(their_out)
        self.count, self.rest, self.session = 0, b'', None
        target = self.ask('Target.createTarget', url='about:blank')['targetId']
        self.session = self.ask('Target.attachToTarget', targetId=target, flatten=True)['sessionId']

    def say(self, method, **parameters):
        self.count += 1
        message = {'id': self.count, 'method': method, 'params': parameters}
        if self.session:
            message['sessionId'] = self.session
        os.write(self.out, json.dumps(message).encode() + b'\0')

    def ask(self, method, **parameters):
        self.say(method, **parameters)
        while True:
            while b'\0' not in self.rest:
                said = os.read(self.back, 1 << 20)
                if not said:
                    sys.exit(f'{method}: Chromium has ended')
                self.rest += said
            said, self.rest = self.rest.split(b'\0', 1)
            answer = json.loads(said)
            if answer.get('id') == self.count:
                if 'error' in answer:
                    sys.exit(f'{method}: {answer["error"]["message"]}')
                return answer['result']

    def quit(self):
        self.session = None
        self.say('Browser.close')

    def run(self, script):
        answer = self.ask('Runtime.evaluate', expression=script, returnByValue=True, awaitPromise=True)
        return answer['result'].get('value', answer.get('exceptionDetails'))

    def go(self, address, width, height, scheme):
        self.ask('Emulation.setDeviceMetricsOverride', width=width, height=height, deviceScaleFactor=1, mobile=False)
        self.ask('Emulation.setEmulatedMedia', features=[{'name': 'prefers-color-scheme', 'value': scheme}])
        for one in ('about:blank', address):
            self.ask('Page.navigate', url=one)

    def insert(self, text):
        self.ask('Input.insertText', text=text)

    def press(self, *keys):
        for key in keys:
            how = {'key': key, 'code': key, 'windowsVirtualKeyCode': CODES[key]}
            self.ask('Input.dispatchKeyEvent', type='keyDown', **how, **({'text': '\r'} if key == 'Enter' else {}))
            self.ask('Input.dispatchKeyEvent', type='keyUp', **how)

    def mouse(self, x, y, click=False):
        for kind in ['mouseMoved', *(['mousePressed', 'mouseReleased'] if click else [])]:
            how = {} if kind == 'mouseMoved' else {'button': 'left', 'clickCount': 1}
            self.ask('Input.dispatchMouseEvent', type=kind, x=x, y=y, **how)

    def picture(self, file):
        file.write_bytes(base64.b64decode(self.ask('Page.captureScreenshot', format='png')['data']))
