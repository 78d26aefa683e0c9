"""Programs that are run in a folder of their own, with limits of time, memory and output, and that can be stopped."""
import os, shutil, signal, subprocess, sys, tempfile, time

HERE = os.path.dirname(os.path.abspath(__file__))
LAUNCHER = os.path.join(HERE, 'limited.py')
MIB = 1 << 20
# What compilers and Python need to see of the system; no folder of a user is among it.
SYSTEM = ['/usr', '/lib', '/lib64', '/bin', '/etc/alternatives', '/etc/ld.so.cache', '/etc/ld.so.conf', '/etc/ld.so.conf.d', '/dev/urandom',
          '/proc/cpuinfo', '/sys/devices/system/cpu', sys.prefix, sys.base_prefix]


class Limits:
    """The most that one program takes: seconds by the clock and of the processor, bytes of memory, bytes of each file that it writes."""

    def __init__(self, seconds, busy=None, memory=1024 * MIB, output=8 * MIB):
        self.seconds, self.busy, self.memory, self.output = seconds, busy or seconds, memory, output


def of_compilers(seconds):
    """The limits of a compiler: 10 s of the processor; by the clock as long as a search takes, as other work may be done beside it."""
    return Limits(max(30, seconds), 10)


class Stopped(Exception):
    """The run was stopped."""


class Ended:
    """How a program ended: its status, what it wrote, the seconds that it took, and the limit that ended it or None: `time`, `processor`
    or `output`."""

    def __init__(self, status, out, err, seconds, limit):
        self.status, self.out, self.err, self.seconds, self.limit = status, out, err, seconds, limit

    def error(self):
        return self.err.decode('utf-8', 'replace').strip()

    def text(self):
        return self.out.decode('utf-8', 'replace')


class Folder:
    """A folder of one run, removed at its end, and the programs that run in it."""

    def __init__(self, stop):
        self.path, self.stop = tempfile.mkdtemp(prefix='explore-'), stop

    def __enter__(self):
        return self

    def __exit__(self, *_):
        shutil.rmtree(self.path, ignore_errors=True)

    def file(self, name, text=None):
        """The path of a file of the folder; with a text, which is bytes or characters, it is written."""
        path = os.path.join(self.path, name)
        if text is not None:
            with open(path, 'wb') as file:
                file.write(text if isinstance(text, bytes) else text.encode('utf-8', 'replace'))
        return path

    def run(self, name, words, limits, sees=()):
        """Runs a program. What it writes goes to files of the folder that begin with `name`. Stopped where the run is stopped."""
        if self.stop.is_set():
            raise Stopped
        out, err = self.file(name + '.stdout', b''), self.file(name + '.stderr', b'')
        own = [str(limits.busy), str(limits.memory), str(limits.output)]
        own += [word for path in (*SYSTEM, *sees) for word in ('--sees', path)]
        own += [word for path in (self.path, '/dev/null') for word in ('--writes', path)]
        start = time.monotonic()
        with open(out, 'wb') as to, open(err, 'wb') as told:
            process = subprocess.Popen([sys.executable, '-I', '-S', LAUNCHER, *own, '--', *words], cwd=self.path, stdin=subprocess.DEVNULL,
                                       stdout=to, stderr=told, start_new_session=True, env=self.environment())
            limit = self.wait(process, start + limits.seconds)
        seconds = time.monotonic() - start
        if max(os.path.getsize(out), os.path.getsize(err)) >= limits.output or process.returncode == -signal.SIGXFSZ:
            limit = 'output'
        if process.returncode in (-signal.SIGXCPU, 128 + signal.SIGXCPU) or limit is None and process.returncode == -signal.SIGKILL:
            limit = 'processor'
        with open(out, 'rb') as wrote, open(err, 'rb') as told:
            return Ended(process.returncode, wrote.read(limits.output), told.read(limits.output), seconds, limit)

    def environment(self):
        kept = {name: os.environ[name] for name in ('PATH', 'LD_LIBRARY_PATH') if name in os.environ}
        return {**kept, 'TMPDIR': self.path, 'HOME': self.path, 'LC_ALL': 'C.UTF-8', 'PYTHONDONTWRITEBYTECODE': '1'}

    def wait(self, process, end):
        """Waits for the end of a program, which comes at the latest when its time is over or the run is stopped."""
        while True:
            try:
                process.wait(timeout=0.05)
                return None
            except subprocess.TimeoutExpired:
                late = time.monotonic() >= end
                if late or self.stop.is_set():
                    kill_all(process)
                    if not late:
                        raise Stopped from None
                    return 'time'


def kill_all(process):
    """Ends a program and those that it started."""
    try:
        os.killpg(process.pid, signal.SIGKILL)
    except ProcessLookupError:
        pass
    process.wait()
