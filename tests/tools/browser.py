"""A small client of chromedriver, by Python's standard library alone: what a person does in Chromium, and what is seen there."""
import base64, json, socket, subprocess, time, urllib.error, urllib.request


TAB = '\ue004'


def free_port():
    with socket.socket() as probe:
        probe.bind(('127.0.0.1', 0))
        return probe.getsockname()[1]


class Browser:
    def __init__(self, downloads, width=1360, height=900):
        port = free_port()
        self.driver = subprocess.Popen(['chromedriver', f'--port={port}'], stdout=subprocess.DEVNULL, stderr=subprocess.DEVNULL)
        self.base = f'http://127.0.0.1:{port}'
        self.session = ''
        options = {'args': ['--headless=new', '--no-sandbox', '--disable-gpu', '--disable-dev-shm-usage', f'--window-size={width},{height}', '--force-device-scale-factor=1'],
                   'prefs': {'download.default_directory': downloads}}
        wanted = {'browserName': 'chrome', 'unhandledPromptBehavior': 'accept', 'goog:chromeOptions': options, 'goog:loggingPrefs': {'browser': 'ALL'}}
        self.until(self.is_up, 30)
        self.session = '/session/' + self.do('POST', '/session', {'capabilities': {'alwaysMatch': wanted}})['sessionId']

    def is_up(self):
        try:
            return self.do('GET', '/status')['ready']
        except OSError:
            return False

    def do(self, method, path, body=None):
        data = None if body is None else json.dumps(body).encode()
        request = urllib.request.Request(self.base + self.session + path, method=method, data=data, headers={'Content-Type': 'application/json'})
        try:
            with urllib.request.urlopen(request, timeout=120) as answer:
                return json.load(answer)['value']
        except urllib.error.HTTPError as error:
            raise RuntimeError(error.read().decode()[:600]) from None

    def close(self):
        try:
            self.do('DELETE', '')
        finally:
            self.driver.terminate()
            self.driver.wait()

    # What a person does

    def go(self, address):
        self.do('POST', '/url', {'url': address})

    def find(self, css):
        return '/element/' + next(iter(self.do('POST', '/element', {'using': 'css selector', 'value': css}).values()))

    def type(self, css, text):
        self.do('POST', self.find(css) + '/value', {'text': text})

    def clear(self, css):
        self.do('POST', self.find(css) + '/clear', {})

    def click(self, css):
        self.do('POST', self.find(css) + '/click', {})

    def press(self, *keys):
        """Keys held down together."""
        actions = [{'type': 'keyDown', 'value': key} for key in keys] + [{'type': 'keyUp', 'value': key} for key in reversed(keys)]
        self.do('POST', '/actions', {'actions': [{'type': 'key', 'id': 'keyboard', 'actions': actions}]})

    def set(self, name, value):
        """Puts a text in the place of another, as by pasting it."""
        self.js('const [name, value] = arguments, field = document.getElementById(name); field.value = value; field.dispatchEvent(new Event("input"));', name, value)

    def screen(self, width, height, phone=False):
        self.tools('Emulation.setDeviceMetricsOverride', width=width, height=height, deviceScaleFactor=1, mobile=phone)

    # What is seen

    def js(self, script, *arguments):
        return self.do('POST', '/execute/sync', {'script': script, 'args': list(arguments)})

    def tools(self, command, **given):
        return self.do('POST', '/goog/cdp/execute', {'cmd': command, 'params': given})

    def text(self, name):
        return self.js('return document.getElementById(arguments[0]).textContent', name)

    def until(self, holds, seconds=20):
        end = time.monotonic() + seconds
        while time.monotonic() < end:
            if holds():
                return True
            time.sleep(.05)
        return False

    def shows(self, script):
        return self.until(lambda: self.js('return ' + script))

    def picture(self, path, width):
        """Saves the whole page as a picture."""
        height = self.js('return document.documentElement.scrollHeight')
        got = self.tools('Page.captureScreenshot', captureBeyondViewport=True, clip={'x': 0, 'y': 0, 'width': width, 'height': height, 'scale': 1})
        with open(path, 'wb') as file:
            file.write(base64.b64decode(got['data']))

    def console(self):
        return [entry['message'] for entry in self.do('POST', '/se/log', {'type': 'browser'})]
