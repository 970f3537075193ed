"""A headless chromium, driven by its DevTools protocol with the standard library alone: real pointer and key events."""

import base64
import json
import os
import pathlib
import shutil
import socket
import struct
import subprocess
import tempfile
import time
import urllib.request

CHROMIUM = shutil.which('chromium')
KEYS = {'ArrowLeft': 37, 'ArrowUp': 38, 'ArrowRight': 39, 'ArrowDown': 40, 'Home': 36, 'End': 35, 'PageUp': 33, 'PageDown': 34, 'Escape': 27,
        'Tab': 9, 'Enter': 13}


class Socket:
    """A websocket's client, as much of it as is needed."""

    def __init__(self, port, path):
        self.link = socket.create_connection(('127.0.0.1', port), timeout=60)
        key = base64.b64encode(os.urandom(16)).decode()
        self.link.sendall(('GET %s HTTP/1.1\r\nHost: 127.0.0.1:%d\r\nUpgrade: websocket\r\nConnection: Upgrade\r\nSec-WebSocket-Key: %s\r\n'
                           'Sec-WebSocket-Version: 13\r\n\r\n' % (path, port, key)).encode())
        self.left = b''
        while b'\r\n\r\n' not in self.left:
            self.left += self.link.recv(4096)
        self.left = self.left.split(b'\r\n\r\n', 1)[1]

    def send(self, text):
        content, mask = text.encode(), os.urandom(4)
        size = len(content)
        long = struct.pack('>BH', 254, size) if size < 65536 else struct.pack('>BQ', 255, size)
        begin = bytes([129]) + (bytes([128 | size]) if size < 126 else long)
        self.link.sendall(begin + mask + bytes(b ^ mask[k % 4] for k, b in enumerate(content)))

    def _read(self, count):
        while len(self.left) < count:
            part = self.link.recv(1 << 16)
            if not part:
                raise EOFError('the browser is gone')
            self.left += part
        found, self.left = self.left[:count], self.left[count:]
        return found

    def receive(self):
        whole = b''
        while True:
            first, second = self._read(2)
            size = second & 127
            if size >= 126:
                size, = struct.unpack('>H' if size == 126 else '>Q', self._read(2 if size == 126 else 8))
            whole += self._read(size)
            if first & 128:
                return whole.decode()


class Browser:

    def __init__(self):
        self.folder = tempfile.mkdtemp()
        self.process = subprocess.Popen(
            [CHROMIUM, '--headless', '--no-sandbox', '--disable-gpu', '--remote-debugging-port=0', '--remote-allow-origins=*', '--hide-scrollbars',
             '--user-data-dir=' + self.folder, '--window-size=1400,1000', 'about:blank'], stdout=subprocess.DEVNULL, stderr=subprocess.DEVNULL)
        place = pathlib.Path(self.folder, 'DevToolsActivePort')
        for _ in range(600):
            if place.exists() and len(place.read_text().split()) == 2:
                break
            time.sleep(.1)
        port = int(place.read_text().split()[0])
        with urllib.request.urlopen('http://127.0.0.1:%d/json' % port) as told:
            target, = [page for page in json.load(told) if page['type'] == 'page']
        self.socket, self.count = Socket(port, target['webSocketDebuggerUrl'].split(str(port))[1]), 0
        self.faults, self.wanted = [], []
        for name in ('Page', 'Runtime', 'Network'):
            self.do(name + '.enable')

    def do(self, method, **parameters):
        self.count += 1
        self.socket.send(json.dumps({'id': self.count, 'method': method, 'params': parameters}))
        while True:
            told = json.loads(self.socket.receive())
            if told.get('method') == 'Runtime.exceptionThrown':
                self.faults.append(told['params']['exceptionDetails'].get('exception', {}).get('description', 'exception'))
            if told.get('method') == 'Network.requestWillBeSent':
                self.wanted.append(told['params']['request']['url'])
            if told.get('id') == self.count:
                if 'error' in told:
                    raise RuntimeError(told['error'])
                return told['result']

    def js(self, text):
        result = self.do('Runtime.evaluate', expression=text, returnByValue=True, awaitPromise=True)
        if 'exceptionDetails' in result:
            raise RuntimeError(result['exceptionDetails']['exception'].get('description'))
        return result['result'].get('value')

    def open(self, page):
        self.do('Page.navigate', url=pathlib.Path(page).resolve().as_uri())
        for _ in range(400):
            if self.js("document.readyState === 'complete' && !!document.getElementById('eventhead').textContent"):
                return
            time.sleep(.05)
        raise RuntimeError('the page did not open: %s' % self.faults)

    def text(self, name):
        return self.js('document.getElementById(%r).innerText' % name)

    def key(self, key):
        extra = {'text': key} if len(key) == 1 else {'text': '\r'} if key == 'Enter' else {}
        for kind in ('keyDown', 'keyUp'):
            self.do('Input.dispatchKeyEvent', type=kind, key=key, windowsVirtualKeyCode=KEYS.get(key, 0), **(extra if kind == 'keyDown' else {}))

    def focus(self, name):
        self.js("(e => { e.scrollIntoView({block: 'center'}); e.focus() })(document.getElementById(%r))" % name)

    def point(self, selector, x=None, y=None, click=False):
        """The pointer over an element, in its middle where not said otherwise."""
        box = self.js("(e => { e.scrollIntoView({block: 'center'}); const r = e.getBoundingClientRect(); return [r.left, r.top, r.width, r.height] })"
                      "(document.querySelector(%s))" % json.dumps(selector))
        spot = {'x': box[0] + (box[2] / 2 if x is None else x), 'y': box[1] + (box[3] / 2 if y is None else y)}
        self.do('Input.dispatchMouseEvent', type='mouseMoved', **spot)
        if click:
            for kind in ('mousePressed', 'mouseReleased'):
                self.do('Input.dispatchMouseEvent', type=kind, button='left', clickCount=1, **spot)

    def click(self, selector, x=None, y=None):
        self.point(selector, x, y, click=True)

    def shot(self, path, top, height):
        made = self.do('Page.captureScreenshot', captureBeyondViewport=True, clip={'x': 0, 'y': top, 'width': 1400, 'height': height, 'scale': 1})
        pathlib.Path(path).write_bytes(base64.b64decode(made['data']))

    def pdf(self):
        return base64.b64decode(self.do('Page.printToPDF', printBackground=True, preferCSSPageSize=True)['data'])

    def close(self):
        self.socket.link.close()
        self.process.terminate()
        self.process.wait()
        shutil.rmtree(self.folder, ignore_errors=True)
