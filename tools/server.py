"""The server of `tools/card serve`: the page of tools/workbench_page and what it asks, on this machine alone.

It listens on 127.0.0.1, answers only requests that name it so and that no other site's page has made, takes requests of a limited size, and writes
no file: the page has a card's text, and saves it where the browser saves."""
import json, os, sys, threading
from http.server import BaseHTTPRequestHandler, ThreadingHTTPServer
from exits import say
from expectations import cards
from files import decoded, is_words
from places import EXAMPLES, HERE
import vinegarspit, workbench


PAGE = {'/': ('index.html', 'text/html'), '/style.css': ('style.css', 'text/css'), '/workbench.js': ('workbench.js', 'text/javascript')}
LONGEST = 1 << 16      # of a request and of a file, in bytes
PASSED_OVER = 1 << 20  # of a request that is refused
STACK = 16 << 20       # of a thread: far more than judging the deepest cards takes
PATIENCE = 10          # seconds that a request may take to arrive
HEADERS = {'Content-Security-Policy': "default-src 'none'; script-src 'self'; style-src 'self'; connect-src 'self'; img-src data:; base-uri 'none'; "
                                      "form-action 'none'; frame-ancestors 'none'",
           'X-Content-Type-Options': 'nosniff', 'Referrer-Policy': 'no-referrer', 'Cross-Origin-Resource-Policy': 'same-origin', 'Cache-Control': 'no-store'}


class Refused(Exception):
    """A request that is not answered, with the status and what is reported."""
    def __init__(self, status, reason):
        super().__init__(reason)
        self.status = status


class Handler(BaseHTTPRequestHandler):
    timeout, server_version, sys_version = PATIENCE, 'workbench', ''
    read = False    # whether the body of the request was read

    def answer(self, status, body, kind='text/plain'):
        self.send_response(status)
        for name, value in {**HEADERS, 'Content-Type': f'{kind}; charset=utf-8', 'Content-Length': str(len(body))}.items():
            self.send_header(name, value)
        self.end_headers()
        self.wfile.write(body)

    def answered(self, found):
        """Answers with what is found, or tells why there is nothing."""
        try:
            self.check_sender()
            self.answer(200, *found())
        except Refused as refused:
            self.pass_over_body()
            self.answer(refused.status, f'{refused}\n'.encode())

    def pass_over_body(self):
        """Reads what a refused request still has, unless that is far too much, so that its sender reads the answer."""
        if not self.read and (self.length() or 0) <= PASSED_OVER:
            self.rfile.read(self.length() or 0)

    def length(self):
        """How long the body of the request is, or none where it does not say; all that is far too long counts alike."""
        told = self.headers.get('Content-Length', '')
        return int(told[:9]) if told.isdecimal() else None

    def check_sender(self):
        """Only this machine by its own name, and no other site's page."""
        hosts = {f'{name}:{self.server.server_port}' for name in ('127.0.0.1', 'localhost')}
        if self.headers.get('Host') not in hosts or self.headers.get('Origin') not in {None, *('http://' + host for host in hosts)}:
            raise Refused(403, 'this workbench is for its own page alone')

    def do_GET(self):
        self.answered(self.page)

    def do_POST(self):
        self.answered(self.told)

    def page(self):
        if self.path == '/cards':
            return json.dumps(self.server.cards).encode(), 'application/json'
        if self.path not in PAGE:
            raise Refused(404, 'there is no such page')
        file, kind = PAGE[self.path]
        with open(os.path.join(HERE, 'workbench_page', file), 'rb') as page:
            return page.read(), kind

    def told(self):
        if self.path != '/told':
            raise Refused(404, 'there is no such page')
        card, log = self.asked()
        with self.server.one_at_a_time:
            return json.dumps(workbench.told(card, log)).encode(), 'application/json'

    def asked(self):
        """The card's text and the log of a request."""
        if self.headers.get_content_type() != 'application/json':
            raise Refused(415, 'JSON is asked for')
        length = self.length()
        if length is None:
            raise Refused(411, 'the length is asked for')
        if length > LONGEST:
            raise Refused(413, f'a card and a log of at most {LONGEST:,} bytes are asked for')
        self.read = True
        try:
            given = json.loads(self.rfile.read(length))
            card, log = given['card'], given['log']
            (card + log).encode()
        except (ValueError, TypeError, KeyError, RecursionError):
            raise Refused(400, 'a card and a log, both texts, are asked for') from None
        return card, log

    def log_message(self, *_):
        pass


class Server(ThreadingHTTPServer):
    daemon_threads = True

    def handle_error(self, request, client_address):
        """A browser that goes away in the middle of an answer is no fault."""
        if not isinstance(sys.exc_info()[1], (ConnectionError, TimeoutError)):
            super().handle_error(request, client_address)

    def __init__(self, port, files):
        self.one_at_a_time = threading.Lock()    # the judges of a card share their memory
        self.cards = [{'name': os.path.relpath(path), 'text': text} for path, text in files]
        threading.stack_size(STACK)
        super().__init__(('127.0.0.1', port), Handler)


def texts(paths):
    """The texts of files, each once; what cannot be shown is reported."""
    met = set()
    for path in cards(paths):
        if os.path.realpath(path) in met:
            continue
        met.add(os.path.realpath(path))
        try:
            with open(path, 'rb') as file:
                data = file.read(LONGEST + 1)
            if is_words(data):
                raise ValueError('the words of a card: disassemble prints a text for them')
            if len(data) > LONGEST:
                raise ValueError(f'over {LONGEST:,} bytes, which the page does not take')
            yield path, decoded(data)
        except OSError as error:
            say(f'{path}: {error.strerror}')
        except ValueError as error:
            say(f'{path}: {error}')


def serve(paths, port):
    """Serves the page until it is interrupted, with the files' texts and the examples to choose from."""
    vinegarspit.library()    # made before the first request
    files = list(texts([*paths, EXAMPLES]))
    try:
        server = Server(port, files)
    except OSError as error:
        raise OSError(error.errno, error.strerror, f'port {port}') from None
    print(f'http://127.0.0.1:{server.server_port}/   (Ctrl-C ends it)', flush=True)
    try:
        server.serve_forever()
    except KeyboardInterrupt:
        print()
