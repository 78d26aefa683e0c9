"""What a compiler made of a function of C, beside the kernel that tools/from-c makes of it: runs of both, and `vegen check`."""
import argparse, importlib.machinery, importlib.util, os, re, subprocess

import clang_ir
import kernel_from_ir
import kernel_trial
import machine_code
from layouts import Kernel, random_memory, run_vegen
from levelling import Levelled
from time_limit import TooLong, limited
from machine import Machine, Refused
from machine_bytes import library_of
from words import ROOT

LIBRARY = os.path.join(ROOT, 'library', 'avx2')
FORMS = ('max', '', 'maxmin', 'if', 'round', 'bytes', 'sums')
SHARED_WORDS = re.compile(r'-(I|D|U|std=|include|isystem|f(un)?signed-char)')
PLAIN = ('-O0', '-w', '-fwrapv', '-fno-strict-aliasing')
TRAPPING = ('-O1', '-w', '-fsanitize=undefined', '-fno-sanitize=alignment', '-fsanitize-trap=all')
# The words of what is the same, by whether `--more` was asked and whether the texts were levelled.
SAME = {(False, False): 'same', (False, True): 'same, levelled',
        (True, False): 'same with --more', (True, True): 'same with --more, levelled'}
FAR, SECONDS = 4000, 120


class Fault(Exception):
    """What ends a trial with one line."""


class NoKernel(Fault):
    """A function that is no kernel."""


class NoProgram(Fault):
    """Machine code that is no program; `why` is the cause."""

    def __init__(self, line, why):
        super().__init__(line)
        self.why = why


def from_c():
    """The tool tools/from-c as a module."""
    loader = importlib.machinery.SourceFileLoader('from_c', os.path.join(ROOT, 'tools', 'from-c'))
    module = importlib.util.module_from_spec(importlib.util.spec_from_loader('from_c', loader))
    loader.exec_module(module)
    return module


def kernel_words(path, function, passes, both):
    return argparse.Namespace(file=path, function=function, passes=passes, rows=False, loop=False, noalias=False, both=both)


def shared_words(words):
    """Those words of a compiler's that its C means something else without, for clang."""
    found, after = [], False
    for word in words:
        if after or SHARED_WORDS.match(word):
            found.append(word)
        after = word in ('-I', '-D', '-U', '-include', '-isystem')
    return found


def kernels_of(path, function, flags, passes=None, both=False):
    """The kernels of a function, by few passes and by those of -O2, each with its translation; the cause where there is none."""
    tool, found, refused = from_c(), [], None
    for which in ('few', 'O2') if passes is None else (passes,):
        try:
            text, made = tool.kernel(kernel_words(path, function, which, both), flags, {})
            if all(text.split('\n', 1)[1] != other.split('\n', 1)[1] for other, _ in found):
                found.append((text, made))
        except (kernel_from_ir.Fault, clang_ir.Missing) as fault:
            refused = refused or fault
    if not found:
        raise NoKernel(str(refused))
    return found


def compiled(command, path, folder, name='function'):
    """The object that a compiler makes, and a shared object of it."""
    target, shared = os.path.join(folder, name + '.o'), os.path.join(folder, name + '.so')
    for more in ([], ['-fPIC']):
        run([*command, *more, '-c', path, '-o', target])
        try:
            linked(command[0], target, shared)
            return target, shared
        except Fault as fault:
            failed = fault
    raise failed


def linked(compiler, target, shared):
    run([compiler, '-shared', '-Wl,-Bsymbolic', target, '-o', shared, '-lm'])


def run(words):
    try:
        ended = limited(words, SECONDS, capture_output=True, text=True, errors='replace', stdin=subprocess.DEVNULL)
    except OSError as fault:
        raise Fault(f'{words[0]}: {fault.strerror}')
    except TooLong as fault:
        raise Fault(str(fault))
    if ended.returncode:
        lines = [line for line in ended.stderr.split('\n') if 'error' in line or 'undefined' in line] or ended.stderr.split('\n')
        raise Fault(f'{os.path.basename(words[0])} ended with {ended.returncode}: {lines[0][:300]}')


class Runs(kernel_trial.Trial):
    """The machine code, the kernel and programs on the same memories. `made` is the translation of the C, `text` its kernel."""

    def __init__(self, made, text, seed, count, vegen, folder):
        super().__init__(made, text, seed)
        self.vegen, self.folder = vegen, folder
        self.layouts_made = [self.layout() for _ in range(count)]
        self.memories = [random_memory(layout.size, self.rng) for layout in self.layouts_made]
        self.by_kernel = [self.ran(['eval'], 'kernel', text, k) for k in range(count)]
        self.out = set()

    def ran(self, words, name, text, k):
        """What `eval` or `run` leaves of a memory."""
        memory = os.path.join(self.folder, f'memory{k}')
        for path, content in ((os.path.join(self.folder, name), text.encode()), (memory, self.memories[k])):
            with open(path, 'wb') as file:
                file.write(content)
        ended = run_vegen(self.vegen, [*words, name, f'memory{k}', *self.bound(k)], self.folder)
        os.remove(memory)
        if ended.returncode:
            raise Fault(f'{words[0]} ends with {ended.returncode}: {ended.stderr.decode(errors="replace").strip()}')
        return ended.stdout

    def bound(self, k):
        return [f'{word}={value}' for word, value in self.layouts_made[k].bound.items()]

    def left(self, shared, some=None):
        """What machine code leaves of the memories, or of some: None where it wrote outside."""
        some = range(len(self.memories)) if some is None else some
        return self.calls(shared, [self.layouts_made[k] for k in some], [self.memories[k] for k in some], self.folder)

    def differing(self, given):
        """The first memory that is not left as by the kernel: (memory, byte), or None. Those in `out` are not looked at."""
        for k, (one, other) in enumerate(zip(given, self.by_kernel)):
            if k not in self.out and one != other:
                return k, None if one is None else next(at for at in range(len(one)) if one[at] != other[at])
        return None


class Verdict:
    """What came of a function: a word (one of SAME, `differs`, `WRONG`), the line that tells it, and the texts."""

    def __init__(self, word, line, kernel='', program='', entries='', memory=b''):
        self.word, self.line, self.kernel, self.program, self.entries, self.memory = word, line, kernel, program, entries, memory


class Trial:
    """A function of C, the command that compiles it, and how many memories are tried."""

    def __init__(self, path, function, command, vegen, folder, memories=100, seed=1, passes=None, both=False):
        self.path, self.function, self.command, self.vegen, self.folder = path, function, command, vegen, folder
        self.memories, self.seed, self.library = memories, seed, library_of(LIBRARY)
        self.kernels = kernels_of(path, function, shared_words(command[1:]), passes, both)
        self.program, self.form, self.kernel, self.runs = None, FORMS[0], self.kernels[0][0], None

    def of(self, command):
        """The trial with another command, whose C means the same."""
        self.command, self.program, self.form, self.kernel = command, None, FORMS[0], self.kernels[0][0]
        return self

    def verdict(self):
        """Compiles, runs and compares."""
        target, shared = compiled(self.command, self.path, self.folder)
        return self.of_objects(target, shared)

    def of_objects(self, target, shared):
        runs = self.runs_of_kernel()
        try:
            left = runs.left(shared)
        except kernel_trial.Failed as failed:
            raise Fault(f'{self.function}: {failed}')
        wrong = self.wrong(runs, left)
        if wrong:
            return wrong
        shown = f'{len(left) - len(runs.out)} memories are left alike'
        try:
            return self.compared(machine_code.Object(target), runs, left, shown)
        except Refused as refused:
            raise NoProgram(f'{self.function}: {refused} ({shown})', refused.why)
        except machine_code.Fault as fault:
            raise Fault(str(fault))

    def extended(self):
        """What the caller puts above narrow integers, as clang has it."""
        made = self.kernels[0][1]
        return {made.exact[given.name]: {'signext': 'sext', 'zeroext': 'zext'}[word] for given in made.function.parameters
                for word in ('signext', 'zeroext') if word in given.attributes}

    def written(self, code, kernel, form):
        """The writer of the program of the machine code."""
        return Machine(code, self.function, Kernel(self.function, kernel), self.library, form, self.extended()).run()

    # Runs

    def runs_of_kernel(self):
        """The memories with what the kernel leaves of them, all of which count."""
        if self.runs is None:
            text, made = self.kernels[0]
            self.runs = Runs(made, text, self.seed, self.memories, self.vegen, self.folder)
        self.runs.out = set()
        return self.runs

    def wrong(self, runs, left):
        """The verdict where machine code leaves another memory than the kernel, and C says what it has to leave."""
        while (found := runs.differing(left)) is not None:
            k, at = found
            if self.is_open(runs, k):
                runs.out.add(k)
                continue
            where = f'({" ".join(runs.bound(k))})'
            if at is None:
                line = f'WRONG: a byte outside of memory {k} is written {where}'
            else:
                line = (f'WRONG: byte {at} of memory {k} is {left[k][at]} by the machine code, {runs.by_kernel[k][at]} by the kernel '
                        f'{where}')
            return Verdict('WRONG', line, runs.text, memory=runs.memories[k])
        return None

    def is_open(self, runs, k):
        """Whether C says nothing of what is left of a memory; complains where it says another thing than the kernel."""
        clang, flags = clang_ir.both_programs()[0], shared_words(self.command[1:])
        plain = compiled([clang, *PLAIN, *flags], self.path, self.folder, 'plain')[1]
        checked = compiled([clang, *TRAPPING, *flags], self.path, self.folder, 'checked')[1]
        try:
            runs.left(checked, [k])
        except kernel_trial.Failed:
            return True
        if runs.left(plain, [k])[0] != runs.by_kernel[k]:
            raise Fault(f'{self.function}: the kernel does not mean the function: memory {k} with {" ".join(runs.bound(k))}')
        if runs.layouts_made[k].apart:
            return False
        untyped = compiled([*self.command, '-fno-strict-aliasing'], self.path, self.folder, 'untyped')[1]
        return runs.left(untyped, [k])[0] == runs.by_kernel[k]

    def tried(self, runs, left, program, entries, shared='entries'):
        """Complains where a program leaves another memory than the machine code that it was made of."""
        with open(os.path.join(self.folder, shared), 'w') as file:
            file.write(entries)
        for k in range(len(left)):
            if left[k] is not None and runs.ran(['run', shared], 'program', program, k) != left[k]:
                raise Fault(f'{self.function}: the program does not do what the machine code does on memory {k} with '
                            f'{" ".join(runs.bound(k))}')

    # The comparison

    def compared(self, code, runs, left, shown):
        """The verdict of `check`, then of `check --more`, by the kernels and the forms of entries in turn, as they are and levelled."""
        first, seen = None, set()
        for more, levelling in SAME:
            for text, _ in self.kernels:
                for form in FORMS:
                    writer = self.written(code, text, form)
                    program, entries = writer.text(), writer.entries_text()
                    if self.program is None:
                        self.program = program
                        self.tried(runs, left, program, entries)
                    if (more, levelling, text, program, entries) in seen:
                        continue
                    seen.add((more, levelling, text, program, entries))
                    verdict = self.checked(text, program, entries, levelling, more, runs, left)
                    if verdict.word != 'differs':
                        self.form, self.kernel = form, text
                        return verdict
                    if first is None or 'access load' in first.line and 'access' not in verdict.line:
                        first = verdict
        first.line += f' ({shown})'
        return first

    def checked(self, kernel, program, entries, levelling, more, runs, left):
        """The verdict of `check` on one program; one that is called `same` has run as well."""
        word, line, kernel, program = self.answer_of(kernel, program, entries, levelling, more)
        if word != 'differs' and program != self.program:
            self.tried(runs, left, program, entries)
        return Verdict(word, line, kernel, program, entries)

    def answer_of(self, kernel, program, entries, levelling, more=False):
        """What `check` says, or `check --more`, as a word and a line, and the kernel and the program as they were compared."""
        if levelling:
            levelled = Levelled(kernel, program)
            kernel, program = levelled.kernel, levelled.program
        for name, text in (('entries', entries), ('kernel', kernel), ('program', program)):
            with open(os.path.join(self.folder, name), 'w') as file:
                file.write(text)
        try:
            words = ['check', *['--more'] * more, 'entries', 'kernel', 'program']
            ended = limited([self.vegen, *words], SECONDS, cwd=self.folder, capture_output=True, text=True)
        except TooLong:
            return 'differs', f'differs: check took more than {SECONDS} seconds', kernel, program
        if ended.returncode == 0:
            word = SAME[more, levelling]
            return word, word, kernel, program
        said = ended.stderr.strip().removeprefix('vegen: ')
        if ended.returncode != 13:
            raise Fault(f'{self.function}: check ends with {ended.returncode}: {said[:200]}')
        return 'differs', said if len(said) <= FAR else said[:FAR] + ' ..', kernel, program
