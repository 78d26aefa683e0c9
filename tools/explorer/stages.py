"""All that is told of a text: the kernel, its plan, its program, C and assembly, and its rows, each as soon as it is there.

Each part is a dictionary with its name as `part`. They are handed on in the order in which they come; what is refused, or ended by a
limit, is told in the place of a part.
"""
import concurrent.futures, importlib.machinery, importlib.util, json, os, re, shutil, sys, threading, time

import assembly, c_source, vegen_c, words as head
from processes import MIB, Folder, Limits, Stopped, of_compilers

HERE = os.path.dirname(os.path.abspath(__file__))
TOOLS = os.path.dirname(HERE)
LIBRARY = os.path.join(os.path.dirname(TOOLS), 'library')
AT_ONCE, ROWS = 3, 4
REFUSAL = re.compile(r'vegen: (\w+): (\d+) (\w+)(.*) at (\d+):(\d+)$')


def script():
    """The module of the script tools/vegen, which knows what refusals mean."""
    loader = importlib.machinery.SourceFileLoader('vegen_script', os.path.join(TOOLS, 'vegen'))
    module = importlib.util.module_from_spec(importlib.util.spec_from_loader('vegen_script', loader))
    loader.exec_module(module)
    return module


class Settings:
    """What holds for all runs: the program, the instruction files by name, the compilers by kind, the most seconds of a search."""

    def __init__(self, binary, libraries, seconds):
        self.binary, self.libraries, self.seconds, self.compiling = binary, libraries, seconds, of_compilers(seconds)
        self.compilers = {kind: path for kind in ('gcc', 'clang') if (path := shutil.which(kind))}
        self.script, self.known = script(), {}
        self.seen = [os.path.dirname(os.path.dirname(os.path.realpath(path))) for path in self.compilers.values()]

    def search(self):
        return Limits(self.seconds, memory=4096 * MIB)

    def library(self, name):
        """An instruction file: its entries by name, and the text of each."""
        path = self.libraries[name]
        changed = os.stat(path).st_mtime_ns
        if self.known.get(name, (None,))[0] != changed:
            with open(path, encoding='latin-1') as file:
                text = re.sub(r'//[^\n]*', '', file.read())
            texts = {part.split(None, 1)[0]: 'INSTRUCTION' + part for part in re.split(r'\bINSTRUCTION\b', text)[1:] if part.strip()}
            self.known[name] = changed, vegen_c.read_entries(path), texts
        return self.known[name][1:]


class Run:
    """One run: what was asked, and the parts that are told by `tell` as they come."""

    def __init__(self, asked, settings, folder, tell):
        self.asked, self.settings, self.folder, self.tell_part = asked, settings, folder, tell
        self.start, self.running, self.lock = time.monotonic(), {}, threading.Lock()
        self.library = settings.libraries[asked.library]
        self.kernel_file = folder.file('a.kernel')

    def tell(self, part, **more):
        self.tell_part({'part': part, **more})

    def goes_on(self):
        """What runs now, with the seconds since it began."""
        with self.lock:
            return {name: round(time.monotonic() - since, 1) for name, since in self.running.items()}

    def do(self, name, words, limits):
        """Runs a program of a part; None, told, where a limit ended it."""
        with self.lock:
            self.running[name] = time.monotonic()
        try:
            seen = [self.library, TOOLS, LIBRARY, os.path.dirname(self.settings.binary), *self.settings.seen]
            ended = self.folder.run(re.sub(r'\W+', '-', name), words, limits, seen)
        finally:
            with self.lock:
                self.running.pop(name, None)
        if ended.limit:
            most = {'time': f'{limits.seconds} s', 'processor': f'{limits.busy} s of the processor',
                    'output': f'{limits.output // MIB} MiB of output'}[ended.limit]
            self.tell('ended', of=name, limit=ended.limit, message=f'{name}: ended by its limit of {most}')
            return None
        return ended

    def vegen(self, name, *given):
        """Runs the program; None, told, where it refuses something."""
        ended = self.do(name, [self.settings.binary, *given], self.settings.search())
        if ended is not None and ended.status:
            self.refused(name, ended)
            return None
        return ended

    def own_tool(self, name, *given, limits=None):
        return self.do(name, [sys.executable, *given], limits or self.settings.search())

    def refused(self, name, ended):
        """Tells the refusal of a file with its line and column, and what it means."""
        line = ended.error()
        found = REFUSAL.match(line)
        if not found:
            told = self.settings.script.ENDINGS.get(ended.status) or line or f'status {ended.status}'
            self.tell('refused', of=name, message=f'{name}: {told}')
            return
        kind, number, word, more, row, column = found.groups()
        meaning = self.settings.script.meaning_of(kind, number, word)
        place = f'{self.asked.library}:{row}:{column}: ' if kind == 'instructions' else ''
        self.tell('refused', of=kind, line=int(row), column=int(column), message=f'{place}{kind} refused: {number} {word}{more}'
                  + (f': {meaning}' if meaning else ''))

    # The parts

    def all(self):
        """Tells all parts."""
        try:
            with concurrent.futures.ThreadPoolExecutor(AT_ONCE) as pool:
                started = []
                if self.asked.language == 'c' and self.check_c():
                    started.append(pool.submit(self.safely, self.compilers, 'own', self.asked.text, self.function()))
                if self.kernel() is not None and self.judged():
                    started += [pool.submit(self.safely, part) for part in (self.program, self.explain, *self.plain(), self.rows)]
                for future in started:
                    future.result()
        except Stopped:
            pass
        except Exception as fault:
            self.own_fault(fault)
        self.tell('end', seconds=round(time.monotonic() - self.start, 2))

    def safely(self, part, *given):
        """A part; where it breaks off the others go on."""
        try:
            part(*given)
        except (OSError, ValueError, LookupError, AttributeError, TypeError) as fault:
            self.own_fault(fault)

    def own_fault(self, fault):
        """Tells a fault that no other message tells: of this code, or of an instruction file that it does not read."""
        self.tell('refused', of='explorer', message=f'explore: {type(fault).__name__}: {str(fault)[:200]}')

    def plain(self):
        return [self.plain_c] if self.asked.language == 'kernel' else []

    def check_c(self):
        """Whether the C may be compiled at all; else told."""
        self.is_clean = False
        try:
            c_source.check(self.asked.text.replace('\r\n', '\n'))
            self.is_clean = True
        except c_source.Refused as refused:
            self.tell('refused', of='c', line=refused.line, column=refused.column, message=refused.message)
        return self.is_clean

    def function(self):
        return self.asked.function or next(iter(c_source.functions(self.asked.text)), '')

    def kernel(self):
        """The text of the kernel, in its file, and the line of C of each of its stores; None, told, where there is no kernel."""
        made = {'text': self.asked.text, 'lines': {}}
        if self.asked.language == 'c':
            made = self.from_c() if self.is_clean else None
        if made is not None:
            self.folder.file('a.kernel', made['text'])
            self.tell('kernel', **made)
        return made

    def from_c(self):
        """What tools/from-c makes of the C."""
        name = self.function()
        if not name:
            self.tell('refused', of='c', line=1, column=1, message='the C defines no function')
            return None
        self.folder.file('a.c', self.asked.text)
        ended = self.own_tool('from-c', os.path.join(HERE, 'tell.py'), 'from-c', 'a.c', name, *self.asked.options_of_c(),
                              limits=self.settings.compiling)
        if ended is None:
            return None
        if ended.status:
            self.refused_c(ended.error().replace(self.folder.path + os.sep, ''))
            return None
        return json.loads(ended.text())

    def refused_c(self, told):
        """Tells why C is no kernel, at the line that the tool or the compiler names."""
        place = re.search(r'a\.c:(\d+)(?::(\d+))?', told)
        self.tell('refused', of='c', line=int(place[1]) if place else 1, column=int(place[2] or 1) if place else 1,
                  message=re.sub(r' ?\(a\.c:\d+\)|a\.c:(\d+:)*\s*', '', told) or 'from-c failed')

    def judged(self):
        """Whether the kernel is one; its terms are kept for the picture."""
        ended = self.vegen('terms', 'terms', self.kernel_file)
        if ended is not None:
            self.terms = self.folder.file('a.terms', ended.out)
        return ended is not None

    def program(self):
        guard = ['--guard'] if self.asked.guard else []
        ended = self.vegen('search', 'compile', *guard, self.library, self.kernel_file, *self.asked.options())
        if ended is None:
            return
        path = self.folder.file('a.program', ended.out)
        costs = re.findall(r'^end cost (\d+) scalar (\d+)$', ended.text(), re.M)
        self.tell('program', text=ended.text(), costs=[[int(cost), int(scalar)] for cost, scalar in costs], seconds=round(ended.seconds, 3))
        self.picture(path, ended.text())
        self.c_of(path, ended.text())

    def picture(self, program, text):
        """The plan as a graph, by the lanes of the entries that the program calls."""
        _, texts = self.settings.library(self.asked.library)
        called = dict.fromkeys(re.findall(r' = call (\w+)', text))
        entries = self.folder.file('called', '\n'.join(texts[name] for name in called))
        lanes = self.vegen('lift', 'lift', entries)
        if lanes is None:
            return
        lift = self.folder.file('a.lift', lanes.out)
        ended = self.own_tool('picture', os.path.join(HERE, 'tell.py'), 'picture', self.kernel_file, program, self.terms, lift, entries)
        if ended is None:
            return
        if ended.status:
            self.tell('refused', of='picture', message='there is no picture: ' + ended.error().split('\n')[-1][:300])
            return
        self.tell('picture', graph=ended.text())

    def c_of(self, program, text):
        ended = self.own_tool('to-c', os.path.join(TOOLS, 'to-c'), program, self.library, '--kernel', self.kernel_file)
        if ended is None:
            return
        if ended.status:
            self.tell('refused', of='to-c', message=ended.error()[:300])
            return
        self.tell('c', text=ended.text())
        self.compilers('vegen', ended.text(), re.match(r'\w+ (\w+)', text)[1])

    def plain_c(self):
        """The C of a kernel without vectors, for compilers to put it into vectors."""
        ended = self.own_tool('C of the kernel', os.path.join(HERE, 'tell.py'), 'plain-c', self.kernel_file)
        if ended is None or ended.status:
            return
        name = re.search(r'\b(\w+)_plain\(', ended.text())[1] + '_plain'
        self.compilers('own', ended.text(), name)

    def compilers(self, of, text, name):
        """What each compiler makes of C: its text in the folder is compiled to assembly, and never run."""
        entries, _ = self.settings.library(self.asked.library)
        flags = assembly.machine(entries, self.asked.extensions)
        self.tell('source', of=of, text=text, name=name, flags=' '.join(['-O3', *flags]))
        path = self.folder.file(f'{of}.c', text)
        for kind, compiler in self.settings.compilers.items():
            ended = self.do(f'{kind} of {of}', assembly.words(kind, compiler, flags, path), self.settings.compiling)
            if ended is None:
                continue
            listing = assembly.Listing(ended.text(), name)
            told = ended.error().replace(self.folder.path + os.sep, '')[:2000]
            message = told or f'there is no function {name}' if ended.status or not listing.is_there else None
            self.tell('assembly', of=of, compiler=kind, text=listing.text(), count=listing.count, message=message)

    def explain(self):
        path = self.kernel_file
        if self.asked.guard:
            made = self.own_tool('noalias', os.path.join(HERE, 'tell.py'), 'noalias', path)
            if made is None or made.status:
                return
            path = self.folder.file('alone.kernel', made.out)
        ended = self.vegen('search of the plan', 'explain', self.library, path, *self.asked.options())
        if ended is None:
            return
        *packs, last = ended.text().splitlines()
        rewritten = packs.pop(0) if packs and packs[0].startswith('rewritten ') else ''
        cost, plain, scalar = map(int, re.match(r'plan cost (\d+) plain (\d+) scalar (\d+)', last).groups())
        self.tell('plan', rewritten=rewritten, packs=packs, cost=cost, plain=plain, scalar=scalar, seconds=round(ended.seconds, 3))

    def rows(self):
        """What tools/why says, which makes many searches."""
        limits = Limits(ROWS * self.settings.seconds, memory=4096 * MIB)
        ended = self.own_tool('rows', os.path.join(HERE, 'tell.py'), 'rows', self.settings.binary, self.library, self.kernel_file,
                              *self.asked.options(), limits=limits)
        if ended is None:
            return
        if ended.status:
            self.tell('refused', of='rows', message='tools/why: ' + ended.error().split('\n')[-1][:300])
            return
        self.tell('rows', told=ended.text())
