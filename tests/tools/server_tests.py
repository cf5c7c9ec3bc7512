"""The server of the workbench answers its own page alone, tells what the tool tells, and takes no harm from bad requests."""
import http.client, json, os, random, signal, socket, subprocess, tempfile, threading, time
from xml.dom import minidom
import server, workbench
from checking import CARD, ROOT, check, example, run
from judges import ONE, TWO


class Asked:
    """A server of its own, and requests to it."""
    def __enter__(self):
        self.server = server.Server(0, [('a.card', 'letters a')])
        self.own = f'127.0.0.1:{self.server.server_port}'
        threading.Thread(target=self.server.serve_forever, daemon=True).start()
        return self

    def __exit__(self, *_):
        self.server.shutdown()
        self.server.server_close()

    def __call__(self, method, path, body=None, **headers):
        link = http.client.HTTPConnection('127.0.0.1', self.server.server_port, timeout=30)
        given = {'Host': self.own, 'Content-Type': 'application/json', **{name.replace('_', '-'): value for name, value in headers.items()}}
        link.request(method, path, body, given)
        answer = link.getresponse()
        text = answer.read()
        link.close()
        return answer.status, answer.headers, text


def told(card, log):
    return json.dumps({'card': card, 'log': log})


def requests():
    """The page is served with its headers, and what is not asked rightly gets a clear error."""
    body = told(example('loop.card'), 'aaabbbcc')
    with Asked() as asked:
        port = asked.server.server_port
        check(asked.server.server_address[0] == '127.0.0.1', 'it listens on this machine alone')
        for path in ('/', '/style.css', '/workbench.js', '/cards'):
            status, headers, text = asked('GET', path)
            check(status == 200 and text and "default-src 'none'" in headers['Content-Security-Policy'] and headers['X-Content-Type-Options'] == 'nosniff',
                  f'GET {path}')
            check(b'http:' not in text.replace(b'http://www.w3.org/2000/svg', b'') and b'https:' not in text, f'{path} needs something from elsewhere')
        for status, method, path, given, headers in (
                (403, 'GET', '/', None, {'Host': f'evil.example:{port}'}), (403, 'GET', '/', None, {'Host': '127.0.0.1'}),
                (403, 'POST', '/told', body, {'Host': 'evil.example'}),
                (403, 'POST', '/told', body, {'Origin': 'http://evil.example'}), (403, 'POST', '/told', body, {'Origin': 'null'}),
                (200, 'POST', '/told', body, {'Origin': 'http://' + asked.own}),
                (415, 'POST', '/told', body, {'Content_Type': 'text/plain'}), (404, 'GET', '/../tools/card', None, {}), (404, 'GET', '/told', None, {}),
                (404, 'POST', '/', body, {}),
                (413, 'POST', '/told', told('x' * server.LONGEST, ''), {}), (413, 'POST', '/told', 'x' * (3 << 20), {}), (400, 'POST', '/told', '[', {}),
                (400, 'POST', '/told', '', {}), (400, 'POST', '/told', '[' * 60000, {}), (413, 'POST', '/told', None, {'Content_Length': '9' * 5000}),
                (411, 'POST', '/told', None, {'Content_Length': 'x'}),
                (400, 'POST', '/told', b'\xff\xfe\0', {}), (400, 'POST', '/told', '[]', {}), (400, 'POST', '/told', 'null', {}),
                (400, 'POST', '/told', '{"card": 1, "log": ""}', {}),
                (400, 'POST', '/told', '{"card": ""}', {}), (400, 'POST', '/told', r'{"card": "", "log": "\ud800"}', {}), (501, 'PUT', '/told', body, {}),
                (501, 'DELETE', '/', None, {})):
            try:
                got, _, text = asked(method, path, given, **headers)
            except ConnectionError:    # of a request that is far too long
                got, text = 413, b' '
            check(got == status and text, f'{method} {path} {headers} {str(given)[:40]}: {got}, not {status}')
        check(asked('POST', '/told', body)[0] == 200, 'it answers still')
        chain = ''.join(f'N{at} -> N{at + 1}\n' for at in range(31))
        answer = json.loads(asked('POST', '/told', told(f'letters a\n{chain}N31 -> a N0 | empty', 'a' * 412))[2])
        check(answer['log']['verdicts'][ONE]['count'] == 13216, 'the deepest card, on the stack of a thread')
    print('the server: its page, and who may ask what')


def junk(number):
    """A card of binary junk, or of pieces of cards, gets an answer that can be shown."""
    rng = random.Random(5)
    pieces = ['letters a b\n', 'S -> ', 'a', ' b', ' S', '\n', ' & ', ' | ', 'not ', 'empty', 'accept ab\n', '#', '\0', '\x1b', '<', '\u20ac', ' : 1 2', '\r']
    with Asked() as asked:
        for at in range(number):
            card = ''.join(rng.choices(pieces, k=rng.randrange(20))) if at % 2 else bytes(rng.randrange(256) for _ in range(60)).decode('latin-1')
            log = ''.join(rng.choices(pieces, k=rng.randrange(4)))
            status, _, text = asked('POST', '/told', told(card, log))
            answer = json.loads(text)
            check(status == 200 and 'fault' in answer, f'{card!r} {log!r}: {status}')
            if answer.get('log', {}).get('picture'):
                minidom.parseString(answer['log']['picture'])
    print(f'the server: {number} cards of junk are answered')


def same_as_the_tool():
    """What the page is told is what tools/card says."""
    answer = workbench.told(example('loop.card'), 'aaabbbcc')
    check(answer['log']['verdicts'][ONE] == {'verdict': 'rejected', 'count': 8, 'far': 6, 'reason': ''} and len(answer['log']['calls']) == 8
          and answer['log']['by'] == ONE
          and all(each['holds'] for each in answer['expected']) and answer['table'][0] == [[0], [], [], [1]], f'told of loop.card: {answer}')
    for text, log, key, expected in (
            ('letters a\nS -> b', 'a', 'fault', {'line': 2, 'told': "line 2: 'b' is not among the letters"}),
            (example('spur.card'), 'abba', 'table', [[[0, 2], [1, 2], [2]]]),
            (example('ladder.card'), 'la', 'by', TWO), (example('loop.card'), 'abx', 'unknown', [2]), ('letters a\nS -> S a', 'a', 'verdicts', {}),
            ('letters a\nS -> a S | empty', 'a' * 413, 'picture', None), ('letters a\nS -> a\nT -> a', 'a', 'warnings', ['line 3: T is not reached from S'])):
        answer = workbench.told(text, log)
        check(answer.get(key, answer.get('log', {}).get(key)) == expected, f'{key} of {text!r} {log!r}: {answer}')
    minidom.parseString(workbench.told("letters a'b\nS -> a'b", "a'b")['log']['picture'])
    for file, log in (('loop', 'aabbcc'), ('M', 'ab'), ('tunnel', 'aab'), ('E', 'ba')):
        path, said = os.path.join(ROOT, 'examples', file + '.card'), workbench.told(example(file + '.card'), log)['log']
        verdict = said['verdicts'][ONE]
        out = run(CARD, 'judge', '--calls', path, log)[1].decode().splitlines()
        check(out[0].startswith(verdict['verdict']) and out[1].startswith(f'{verdict["count"]} call') and f'at place {verdict["far"]},' in out[1], f'{file} {log}')
        calls = [f'{name} {place} {"failed" if end is None else end}' + ' *' * proved for name, place, end, proved in said['calls']]
        check([' '.join(line.split()) for line in out[2:2 + len(calls)]] == calls, f'the calls of {file} {log}')
        with tempfile.TemporaryDirectory() as folder:
            picture = os.path.join(folder, 'x.svg')
            run(CARD, 'tree', '--svg', picture, path, log)
            with open(picture) as drawn:
                check(drawn.read() == said['picture'] + '\n', f'the picture of {file} {log}')
    for file in ('spur', 'ladder'):
        path, checked = os.path.join(ROOT, 'examples', file + '.card'), workbench.told(example(file + '.card'), '')['checks'][ONE]
        check(run(CARD, 'check', path)[2].splitlines() == [f'{path}: {checked["told"][0]}'] + ['  ' + line for line in checked['told'][1:]],
              f'the refusal of {file}')
    print('the workbench: what it tells is what the tool tells')


def heeding_interrupts():
    """What a shell starts in the background ignores Ctrl-C, and so do its children."""
    signal.signal(signal.SIGINT, signal.SIG_DFL)


def command():
    """The command prints its address, tells which files it does not take, leaves no file, and ends with Ctrl-C."""
    with tempfile.TemporaryDirectory() as folder:
        words, long = os.path.join(folder, 'words.card'), os.path.join(folder, 'long.card')
        for path, data in ((words, bytes.fromhex('0101001000000070')), (long, b'#' * (server.LONGEST + 1))):
            with open(path, 'wb') as file:
                file.write(data)
        with subprocess.Popen([CARD, 'serve', '--port', '0', words, long, os.path.join(ROOT, 'examples', 'M.card')], stdout=subprocess.PIPE,
                              stderr=subprocess.PIPE, cwd=folder, preexec_fn=heeding_interrupts) as serving:
            address = serving.stdout.readline().decode()
            check(address.startswith('http://127.0.0.1:'), f'serve: {address}')
            port = int(address.split(':')[2].split('/')[0])
            link = http.client.HTTPConnection('127.0.0.1', port, timeout=30)
            link.request('GET', '/cards')
            cards = json.loads(link.getresponse().read())
            check(cards[0]['text'] == example('M.card') and len(cards) == 7, 'the cards to choose from, each once')
            with socket.create_connection(('127.0.0.1', port)) as gone:    # goes away in the middle of its request
                gone.sendall(f'POST /told HTTP/1.0\r\nHost: 127.0.0.1:{port}\r\nContent-Type: application/json\r\nContent-Length: 100\r\n\r\n'.encode())
            code, _, errors = run(CARD, 'serve', '--port', str(port))
            check(code == 2 and f'port {port}: Address already in use' in errors, f'a port that is taken: {errors}')
            time.sleep(0.3)
            serving.send_signal(2)
            _, errors = serving.communicate(timeout=20)
            left_out = [f'{words}: the words of a card: disassemble prints a text for them', f'{long}: over 65,536 bytes, which the page does not take']
            check(serving.returncode == 0 and errors.decode().splitlines() == left_out,
                  f'serve: {serving.returncode} {errors.decode()}')
        check(sorted(os.listdir(folder)) == ['long.card', 'words.card'], 'nothing is written')
    check(run(CARD, 'serve', '--port', '99999')[0] == 2, 'no such port')
    print('the workbench: its command')
