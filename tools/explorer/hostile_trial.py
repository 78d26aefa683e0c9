"""Requests that the server of `tools/explore` has to refuse, or to end by a limit; after each it still answers."""
import concurrent.futures, glob, http.client, json, os, re, socket, subprocess, sys, time

ROOT = os.path.normpath(os.path.join(os.path.dirname(os.path.abspath(__file__)), '..', '..'))
SECRET = 'root:x:0:0'
KERNEL = 'kernel one(d: ptr, p: ptr) {\n  store32(d + 0, load32(p + 0));\n}\n'


class Server:
    """A server of its own, with its temporary files in a folder."""

    def __init__(self, binary, seconds, folder):
        self.binary, self.seconds, self.folder = binary, seconds, os.path.join(folder, 'server')
        os.makedirs(self.folder, exist_ok=True)

    def __enter__(self):
        words = [os.path.join(ROOT, 'tools', 'explore'), '--binary', self.binary, '--seconds', str(self.seconds)]
        environment = {**os.environ, 'TMPDIR': self.folder}
        self.process = subprocess.Popen([sys.executable, *words], stdout=subprocess.PIPE, text=True, env=environment)
        self.address = self.process.stdout.readline().strip()
        self.host, self.token = re.fullmatch(r'http://(127\.0\.0\.1:\d+)/#token=(\S+)', self.address).groups()
        self.port = int(self.host.split(':')[1])
        return self

    def __exit__(self, *_):
        self.process.terminate()
        self.process.wait()

    def left(self):
        """The folders of runs that are there."""
        return glob.glob(os.path.join(self.folder, 'explore-*'))

    def headers(self, **other):
        made = {'Host': self.host, 'Origin': 'http://' + self.host, 'X-Explore-Token': self.token}
        made.update({name.replace('_', '-'): value for name, value in other.items()})
        return {name: value for name, value in made.items() if value is not None}

    def ask(self, method='POST', path='/facts', body=b'{}', headers=None, seconds=120):
        """Status and body of an answer."""
        connection = http.client.HTTPConnection('127.0.0.1', self.port, timeout=seconds)
        try:
            connection.putrequest(method, path, skip_host=True, skip_accept_encoding=True)
            headers = self.headers() if headers is None else headers
            for name, value in headers.items():
                connection.putheader(name, value)
            if 'Content-Length' not in headers and 'Transfer-Encoding' not in headers:
                connection.putheader('Content-Length', str(len(body)))
            connection.endheaders()
            try:
                connection.send(body)
            except (BrokenPipeError, ConnectionResetError):
                pass
            answer = connection.getresponse()
            return answer.status, answer.read()
        finally:
            connection.close()

    def run(self, **given):
        """The parts of a run, and all that was read of the answer."""
        asked = {'language': 'kernel', 'text': KERNEL, 'library': 'sse', **given}
        status, body = self.ask(path='/run', body=json.dumps(asked).encode(), seconds=300)
        need(status == 200, f'status {status}: {body[:200]}')
        return [json.loads(line) for line in body.splitlines()], body.decode()


def need(is_so, what):
    if not is_so:
        raise AssertionError(what)


def messages(parts):
    return ' | '.join(part['message'] for part in parts if part['part'] in ('refused', 'ended'))


class Hostile:
    """The trials; each is followed by a look whether the server goes on."""

    def __init__(self, server):
        self.server = server

    def refused(self, status, **given):
        found, body = self.server.ask(**given)
        need(found == status, f'status {found} in place of {status}: {body[:100]}')
        need(b'token' not in body.lower() or status != 200, 'the answer has a token')
        return body

    def another_host(self):
        host = self.server.host
        for other in ('evil.example', 'localhost:' + host.split(':')[1], '127.0.0.1', '127.0.0.1:1', '[::1]:80', host + '.evil.example', ''):
            self.refused(403, headers=self.server.headers(Host=other))
            self.refused(403, method='GET', path='/', headers=self.server.headers(Host=other))
        self.refused(403, headers=self.server.headers(Host=None))
        self.refused(403, method='GET', path='/', headers={'Host': host, 'Sec-Fetch-Site': 'cross-site'})

    def another_origin(self):
        for other in ('http://evil.example', 'null', 'https://' + self.server.host, 'http://localhost:1', None):
            self.refused(403, headers=self.server.headers(Origin=other))

    def no_token(self):
        for token in (None, '', 'x', self.server.token[:-1], self.server.token + 'x', 'é' * 20):
            headers = self.server.headers(X_Explore_Token=token and token.encode('latin-1'))
            self.refused(403, headers=headers)
            self.refused(403, path='/run', headers=headers)
        page = self.server.ask(method='GET', path='/', headers={'Host': self.server.host})
        need(page[0] == 200 and self.server.token.encode() not in page[1], 'the page holds the token')

    def other_paths(self):
        for path in ('/../../../etc/passwd', '/..%2f..%2fetc%2fpasswd', '//etc/passwd', '/server.py', '/page.html/', '/.git/config', '/run'):
            self.refused(404, method='GET', path=path)
        for method in ('PUT', 'DELETE', 'OPTIONS', 'TRACE', 'HEAD', 'X' * 2000):
            self.refused(501, method=method)
        self.refused(404, path='/other')

    def large_bodies(self):
        for path in ('/run', '/facts', '/other'):
            self.refused(413 if path != '/other' else 404, path=path, body=b' ' * (10 << 20))
        self.refused(403, headers=self.server.headers(X_Explore_Token='x'), body=b' ' * (10 << 20))
        for size in ('-1', '1e3', '', 'x', '99999999999999999999'):
            found, _ = self.server.ask(headers=self.server.headers(Content_Length=size), body=b'{}')
            need(found in (411, 413), f'status {found} for the size {size!r}')
        self.refused(411, headers=self.server.headers(Transfer_Encoding='chunked'), body=b'2\r\n{}\r\n0\r\n\r\n')
        self.refused(400, path='/run', body=b'[' * 500000)

    def wrong_words(self):
        good = {'language': 'kernel', 'text': KERNEL, 'library': 'sse'}
        for name, value in (('language', 'sh'), ('language', None), ('text', 5), ('text', 'x' * 300000), ('library', '../../etc/passwd'),
                            ('library', 7), ('width', 0), ('width', 4097), ('width', True), ('width', '1'), ('extensions', ['--guard']),
                            ('extensions', 'AVX'), ('more', 'yes'), ('strides', ['--cflags=-I/etc']), ('strides', ['a=1'] * 20),
                            ('function', '--try'), ('function', 'a b')):
            self.refused(400, path='/run', body=json.dumps({**good, name: value}).encode())
        for body in (b'', b'5', b'"x"', b'[]', b'{', b'\xff', b'null'):
            self.refused(400, path='/run', body=body)

    def many_at_once(self):
        """200 requests at once, each answered or refused."""
        with concurrent.futures.ThreadPoolExecutor(200) as pool:
            found = [one.result() for one in [pool.submit(self.answered) for _ in range(200)]]
        need(set(found) <= {200, 503, 'closed'} and 200 in found, f'answers {set(found)}')
        return ', '.join(f'{found.count(one)} {one}' for one in sorted(set(found), key=str))

    def answered(self, path='/facts', body=b'{}'):
        try:
            return self.server.ask(path=path, body=body)[0]
        except (ConnectionError, http.client.HTTPException):
            return 'closed'

    def many_runs(self):
        """200 runs at once: some run, the others are refused."""
        body = json.dumps({'language': 'kernel', 'text': KERNEL, 'library': 'sse'}).encode()
        with concurrent.futures.ThreadPoolExecutor(200) as pool:
            found = [one.result() for one in [pool.submit(self.answered, '/run', body) for _ in range(200)]]
        need(set(found) <= {200, 503, 'closed'} and 200 in found, f'answers {set(found)}')
        return ', '.join(f'{found.count(one)} {one}' for one in sorted(set(found), key=str))

    def silent_connections(self):
        """200 connections that send nothing, or a part of a request, and stay."""
        held = []
        for number in range(200):
            one = socket.create_connection(('127.0.0.1', self.server.port), timeout=30)
            try:
                one.sendall(b'POST /run HTTP/1.1\r\nHost: x\r\n'[:number % 30])
            except OSError:
                pass
            held.append(one)
        end = time.monotonic() + 60
        while self.answered() != 200:
            need(time.monotonic() < end, 'no answer for a minute')
            time.sleep(1)
        for one in held:
            one.close()

    def files_in_c(self):
        """C that reads files: refused with a message, and nothing of the file in the answer."""
        end = '\nvoid f(int *d) { d[0] = 1; }\n'
        for front in ('#include "/etc/passwd"', '#include </etc/passwd>', '#include "../../../../etc/passwd"', '#inc\\\nlude "/etc/passwd"',
                      '%:include "/etc/passwd"', '# /* x */ include "/etc/passwd"', '#define F "/etc/passwd"\n#include F',
                      'const char *x = R"(" /* )";\n#include "/etc/passwd"\n// */', '// x\r#include "/etc/passwd"', '#embed "/etc/passwd"',
                      '#if __has_include("/etc/passwd")\n#endif', '#pragma GCC dependency "/etc/passwd"', '#include_next <stdint.h>'):
            parts, body = self.server.run(language='c', text=front + end)
            need('refused' in messages(parts), f'{front!r} is not refused: {messages(parts)}')
            need(SECRET not in body, f'{front!r} shows a file')
            need(not any(part['part'] == 'assembly' for part in parts), f'{front!r} is compiled')
        parts, _ = self.server.run(language='c', text='#include "/etc/passwd"' + end)
        need(parts[0]['line'] == 1 and 'absolute path' in parts[0]['message'], f'not told at its place: {parts[0]}')

    def files_in_assembler(self):
        """Assembler in C that names a file: the file is not in the answer."""
        for front in ('__asm__(".incbin \\"/etc/passwd\\"");', '__asm__(".include \\"/etc/passwd\\"");'):
            _, body = self.server.run(language='c', text=front + '\nvoid f(int *d) { d[0] = 1; __asm__(".incbin \\"/etc/passwd\\""); }\n')
            need(SECRET not in body, f'{front!r} shows a file')

    def compilers_without_end(self):
        """C that takes more time, memory or output than there is."""
        lines = ['#define A0 d[0] += d[1] * d[2];', *(f'#define A{n} A{n - 1} A{n - 1} A{n - 1} A{n - 1}' for n in range(1, 14))]
        parts, _ = self.server.run(language='c', text='\n'.join(lines) + '\nvoid f(int *d) { A13 }\n')
        need(messages(parts), 'nothing is told of a program without end')
        text = 'char a[1 << 28] = {1};\nvoid f(char *d) { for (int i = 0; i < 1 << 28; i++) d[i] = a[i]; }\n'
        parts, _ = self.server.run(language='c', text=text)
        need(parts[-1]['part'] == 'end', 'the run has no end')

    def search_without_end(self):
        """The widest search of many units is ended by its limit."""
        parts, _ = self.server.run(text=endless_kernel(), library='avx512', width=4096, more=True)
        told = [part for part in parts if part['part'] == 'ended']
        need(any(part['of'].startswith('search') and part['limit'] == 'time' for part in told), f'not ended by its limit: {messages(parts)}')
        need(any(part['part'] == 'goes-on' for part in parts), 'it does not say that it goes on')
        return f'after {parts[-1]["seconds"]:.0f} s'

    def run_left(self):
        """A connection that is closed ends its run, and its folder goes."""
        body = json.dumps({'language': 'kernel', 'text': endless_kernel(), 'library': 'avx512', 'width': 4096, 'more': True}).encode()
        one = socket.create_connection(('127.0.0.1', self.server.port))
        lines = [f'{name}: {value}' for name, value in self.server.headers(Content_Length=str(len(body))).items()]
        one.sendall(('POST /run HTTP/1.1\r\n' + '\r\n'.join(lines) + '\r\n\r\n').encode() + body)
        one.recv(1000)
        time.sleep(1)
        need(self.server.left(), 'the run has no folder')
        one.close()
        self.wait_for_end()

    def wait_for_end(self, seconds=30):
        end = time.monotonic() + seconds
        while self.server.left():
            need(time.monotonic() < end, 'the folder of a run stays')
            time.sleep(0.2)

    def large_texts(self):
        """The largest kernels, and the deepest."""
        parts, _ = self.server.run(text=large_kernel(2500))
        need(parts[-1]['part'] == 'end', 'the run has no end')
        deep = 'kernel deep(d: ptr) {\n  store8(d, ' + '(' * 250 + '1i8' + ')' * 250 + ');\n}\n'
        parts, _ = self.server.run(text=deep)
        need(parts[-1]['part'] == 'end', 'the run has no end')
        nested = '1i8'
        for _ in range(80):
            nested = f'smin(smax({nested}, 3i8), 100i8)'
        parts, _ = self.server.run(text=f'kernel deep(d: ptr) {{\n  store8(d, {nested});\n}}\n')
        need(parts[-1]['part'] == 'end', 'the run has no end')
        for text in ('', '\0', 'kernel', '\ud800', 'x' * 262144, '(' * 262144):
            parts, _ = self.server.run(text=text)
            need(messages(parts), f'{text[:20]!r} is not refused')

    def goes_on(self):
        need(self.answered() == 200, 'the server does not go on')
        parts, _ = self.server.run()
        need(any(part['part'] == 'program' for part in parts), 'no run any longer')


def large_kernel(count):
    lines = [f'  store32(d + {4 * i}, load32(p + {4 * (i * 7 % count)}) + load32(q + {4 * i}) * load32(p + {4 * i}));' for i in range(count)]
    return 'kernel large(d: noalias ptr, p: ptr, q: ptr) {\n' + '\n'.join(lines) + '\n}\n'


def endless_kernel():
    """Loads and stores in turns, by pointers that may meet: the widest search of them takes minutes."""
    turns = [[4 * (16 * turn + i) for i in range(16)] for turn in range(6)]
    lines = [line for places in turns for line in [f'  x{at} = load32(p + {at});' for at in places] + [f'  store32(d + {at}, x{at});' for at in places]]
    return 'kernel endless(d: ptr, p: ptr) {\n' + '\n'.join(lines) + '\n}\n'


def trials(server):
    """Names of trials with what runs them, each followed by a run that has to be answered."""
    hostile = Hostile(server)

    def followed(act):
        def both():
            told = act()
            hostile.goes_on()
            hostile.wait_for_end()
            return told
        return both
    for name in ('another_host', 'another_origin', 'no_token', 'other_paths', 'large_bodies', 'wrong_words', 'many_at_once', 'many_runs',
                 'silent_connections', 'files_in_c', 'files_in_assembler', 'compilers_without_end', 'search_without_end', 'run_left',
                 'large_texts'):
        yield name.replace('_', ' '), followed(getattr(hostile, name))
