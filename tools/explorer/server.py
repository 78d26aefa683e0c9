"""The server of `tools/explore`: the page, and parts of a run as lines of JSON, for requests of the page's own alone.

The files of the page hold nothing that is not in the repository. All else is answered where Host, Origin and token are those of this
server. A run ends with its connection: where the page stops it or is closed, what runs is ended.
"""
import hmac, http.server, json, os, queue, secrets, select, socket, threading, time

import c_source
from asked import EXTENSIONS, Asked, Wrong
from processes import Folder
from stages import Run

HERE = os.path.dirname(os.path.abspath(__file__))
ROOT = os.path.normpath(os.path.join(HERE, '..', '..'))
FILES = {'/': ('page.html', 'text/html; charset=utf-8'), '/icon.svg': ('icon.svg', 'image/svg+xml'),
         **{f'/{name}.css': (name + '.css', 'text/css; charset=utf-8') for name in ('page', 'picture')},
         **{f'/{name}.js': (name + '.js', 'text/javascript; charset=utf-8') for name in ('page', 'editor', 'picture', 'panes', 'state')}}
POLICY = ("default-src 'none'; script-src 'self'; style-src 'self'; connect-src 'self'; img-src 'self'; base-uri 'none'; form-action 'none'; "
          "frame-ancestors 'none'")
MOST_BODY, MOST_CONNECTIONS, MOST_RUNS = 1 << 20, 64, 3
PATIENCE = 10
BEAT = 0.5


class Server(http.server.ThreadingHTTPServer):
    """Answers on the loopback address, so many connections at once and no more."""
    daemon_threads, request_queue_size = True, 128

    def __init__(self, port, settings):
        self.settings, self.token = settings, secrets.token_urlsafe(24)
        self.places, self.runs = threading.BoundedSemaphore(MOST_CONNECTIONS), threading.BoundedSemaphore(MOST_RUNS)
        super().__init__(('127.0.0.1', port), Handler)
        self.host, self.stops = f'127.0.0.1:{self.server_address[1]}', set()

    def end(self):
        """Ends all runs, and waits until their folders are gone."""
        self.server_close()
        for stop in list(self.stops):
            stop.set()
        end = time.monotonic() + PATIENCE
        while self.stops and time.monotonic() < end:
            time.sleep(0.05)

    def process_request(self, request, address):
        if not self.places.acquire(blocking=False):
            refuse_at_once(request)
            self.shutdown_request(request)
            return
        super().process_request(request, address)

    def process_request_thread(self, request, address):
        try:
            super().process_request_thread(request, address)
        finally:
            self.places.release()

    def handle_error(self, request, address):
        """A connection that breaks off is no error of the server."""


def refuse_at_once(request):
    try:
        request.settimeout(0.2)
        request.sendall(b'HTTP/1.0 503 Busy\r\nContent-Length: 0\r\nConnection: close\r\n\r\n')
    except OSError:
        pass


class Handler(http.server.BaseHTTPRequestHandler):
    """One request of one connection."""
    timeout, server_version, sys_version = PATIENCE, 'explore', ''

    def setup(self):
        """From here on the request has to be read in so many seconds."""
        super().setup()
        self.clock = threading.Timer(PATIENCE, self.give_up)
        self.clock.daemon = True
        self.clock.start()

    def give_up(self):
        try:
            self.connection.shutdown(socket.SHUT_RDWR)
        except OSError:
            pass

    def finish(self):
        self.clock.cancel()
        super().finish()

    def log_message(self, *_):
        """Nothing is written."""

    def refuse(self, status, why):
        body = json.dumps({'refused': why}).encode()
        self.head(status, 'application/json', len(body))
        self.wfile.write(body)

    def head(self, status, kind, size=None):
        self.send_response(status)
        for name, value in (('Content-Type', kind), ('Content-Security-Policy', POLICY), ('X-Content-Type-Options', 'nosniff'),
                            ('Referrer-Policy', 'no-referrer'), ('Cross-Origin-Resource-Policy', 'same-origin'),
                            ('Cross-Origin-Opener-Policy', 'same-origin'), ('Cache-Control', 'no-store'), ('Connection', 'close')):
            self.send_header(name, value)
        if size is not None:
            self.send_header('Content-Length', str(size))
        self.end_headers()

    def own_host(self):
        """Whether the request names this server, and does not come from another page."""
        hosts = self.headers.get_all('Host', [])
        return hosts == [self.server.host] and self.headers.get('Sec-Fetch-Site', 'none') in ('none', 'same-origin')

    def own_page(self):
        """Whether the page of this server sent the request."""
        token = self.headers.get('X-Explore-Token', '')
        return (self.own_host() and self.headers.get_all('Origin', []) == ['http://' + self.server.host]
                and hmac.compare_digest(token.encode('utf-8', 'replace'), self.server.token.encode()))

    def do_GET(self):
        if not self.own_host():
            return self.refuse(403, 'not the Host of this server')
        name, kind = FILES.get(self.path.partition('?')[0], (None, None))
        if name is None:
            return self.refuse(404, 'no such file')
        with open(os.path.join(HERE, name), 'rb') as file:
            body = file.read()
        self.head(200, kind, len(body))
        self.wfile.write(body)

    def do_POST(self):
        act = {'/facts': self.facts, '/run': self.run}.get(self.path)
        if not self.own_page():
            return self.refuse_body(403, 'this server was started anew, or the address is not the one that it printed')
        if act is None:
            return self.refuse_body(404, 'no such request')
        size = self.headers.get('Content-Length', '')
        if not (size.isascii() and size.isdigit()) or 'Transfer-Encoding' in self.headers:
            return self.refuse(411, 'the size of the body is wanted')
        if int(size) > MOST_BODY:
            return self.refuse_body(413, f'at most {MOST_BODY} bytes are read')
        try:
            given = json.loads(self.rfile.read(int(size)) or b'{}')
        except (ValueError, RecursionError):
            return self.refuse(400, 'no JSON')
        self.clock.cancel()
        try:
            act(given)
        except Wrong as wrong:
            self.refuse(400, str(wrong))

    def refuse_body(self, status, why):
        """Refuses, and reads on for a while, so that one who still writes a body sees the answer."""
        self.refuse(status, why)
        self.wfile.flush()
        end = time.monotonic() + 2
        try:
            self.connection.shutdown(socket.SHUT_WR)
            self.connection.settimeout(0.5)
            while time.monotonic() < end and self.connection.recv(1 << 16):
                pass
        except OSError:
            pass
        self.close_connection = True

    def facts(self, _):
        """What the page offers: examples, instruction files, extensions, compilers."""
        settings = self.server.settings
        body = json.dumps({'examples': examples(), 'libraries': list(settings.libraries), 'extensions': EXTENSIONS,
                           'compilers': list(settings.compilers), 'seconds': settings.seconds}).encode()
        self.head(200, 'application/json', len(body))
        self.wfile.write(body)

    def run(self, given):
        asked = Asked(given)
        if asked.library not in self.server.settings.libraries:
            raise Wrong('library: no instruction file of this name')
        if not self.server.runs.acquire(timeout=PATIENCE):
            return self.refuse(503, f'{MOST_RUNS} runs go on already')
        try:
            self.stream(asked)
        finally:
            self.server.runs.release()

    def stream(self, asked):
        """Writes the parts of a run as they come, and each moment what goes on; ends the run where nobody reads any longer."""
        parts, stop = queue.Queue(), threading.Event()
        self.head(200, 'application/x-ndjson')
        self.server.stops.add(stop)
        try:
            with Folder(stop) as folder:
                run = Run(asked, self.server.settings, folder, parts.put)
                thread = threading.Thread(target=run.all, daemon=True)
                thread.start()
                try:
                    self.write_parts(run, parts)
                finally:
                    stop.set()
                    thread.join()
        finally:
            self.server.stops.discard(stop)

    def write_parts(self, run, parts):
        while not self.is_closed():
            try:
                part = parts.get(timeout=BEAT)
            except queue.Empty:
                part = {'part': 'goes-on', 'of': run.goes_on(), 'seconds': round(time.monotonic() - run.start, 1)}
            try:
                self.wfile.write(json.dumps(part).encode() + b'\n')
            except OSError:
                return
            if part['part'] == 'end':
                return

    def is_closed(self):
        """Whether the other side has closed the connection; it has nothing more to send."""
        readable, _, _ = select.select([self.connection], [], [], 0)
        if not readable:
            return False
        try:
            return self.connection.recv(1, socket.MSG_PEEK) == b''
        except OSError:
            return True


def examples():
    """The kernels and the C of the repository: group, name, language and text of each."""
    found = []
    for group, folder, end, language in (('kernels', 'examples', '.kernel', 'kernel'), ('C', 'examples', '.c', 'c'),
                                         ('drafts', 'examples/drafts', '.kernel', 'kernel')):
        path = os.path.join(ROOT, folder)
        for name in sorted(os.listdir(path)):
            if name.endswith(end):
                with open(os.path.join(path, name), encoding='utf-8') as file:
                    text = file.read()
                found.append({'group': group, 'name': name, 'language': language, 'text': text,
                              'functions': c_source.functions(text) if language == 'c' else []})
    return found
