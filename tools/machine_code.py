"""Functions of x86-64 objects as `objdump -d` shows them: their instructions with operands, and the constants that they read.

Instructions of SSE with two operands are given in the form of AVX, with the first operand as the first source too.
"""
import bisect, collections, os, re, struct, subprocess, tempfile

SIZES = {'BYTE': 1, 'WORD': 2, 'DWORD': 4, 'QWORD': 8, 'XMMWORD': 16, 'YMMWORD': 32}
PREFIXES = ('bnd', 'notrack', 'data16', 'cs', 'ds')
RELOCATABLE, LOADED, WRITABLE = 1, 1, 2
CALLED = re.compile(r'^\s+([0-9a-f]+):\t(?:call|jmp) .*\n\s+[0-9a-f]+: R_X86_64_\w+\s+([^\s+-]+)', re.M)
# Instructions of SSE whose first operand is written alone; all others read it as well.
NOT_READ = re.compile(r'mov|pshuf[dlh]|pmov|pabs|pextr|extract|lddqu|phminpos|ptest|sqrt|cvt|ucomi|comi')
MERGING = re.compile(r'mov[lh]p[sd]$|movhlps$|movlhps$|movs[sd]$')
SSE = re.compile(r'p(?!op|ush|refetch|ause|ext|dep)\w+$|lddqu$|mpsadbw$|(and|andn|or|xor|shuf|blend|blendv|unpck[lh]|insert)p[sd]$'
                 r'|mov(dq[au]|[au]p[sd]|s[sd]|[dq]|[lh]p[sd]|hlps|lhps|ddup|s[hl]dup|ntdqa?|ntp[sd])$')

Register = collections.namedtuple('Register', 'name size at')        # `at`: the first of its bytes in the whole register
Vector = collections.namedtuple('Vector', 'number size')
Number = collections.namedtuple('Number', 'value')
Memory = collections.namedtuple('Memory', 'size base index scale offset')
Target = collections.namedtuple('Target', 'address name')


class Refused(Exception):
    """Machine code that is not taken: why, and what it is."""

    def __init__(self, why, what=''):
        super().__init__(f'{why}: {what}' if what else why)
        self.why, self.what = why, what


class Fault(Exception):
    """An object that cannot be read, or has no such function."""


def registers():
    """The integer registers by their names."""
    found = {}
    whole = 'rax rcx rdx rbx rsp rbp rsi rdi r8 r9 r10 r11 r12 r13 r14 r15'.split()
    for name in whole:
        narrow = ['e' + name[1:], name[1:]] if not name[1].isdigit() else [name + 'd', name + 'w']
        for word, size in zip([name, *narrow], (8, 4, 2)):
            found[word] = Register(name, size, 0)
        if name[1].isdigit():
            found[name + 'b'] = Register(name, 1, 0)
        elif name[2] == 'x':
            found[name[1] + 'l'], found[name[1] + 'h'] = Register(name, 1, 0), Register(name, 1, 1)
        else:
            found[name[1:] + 'l'] = Register(name, 1, 0)
    return found


REGISTERS = registers()


class Instruction:
    """One instruction: its address, the address after it, its text, its name and its operands."""

    def __init__(self, address, after, text):
        self.address, self.after, self.text = address, after, ' '.join(text.split())
        words, _, remark = text.partition('#')
        parts = words.split(None, 1)
        while len(parts) > 1 and parts[0] in PREFIXES:
            parts = parts[1].split(None, 1)
        self.name, rest = parts[0] if parts else '', parts[1] if len(parts) > 1 else ''
        absolute = re.match(r'\s*([0-9a-f]+)', remark)
        self.absolute = int(absolute[1], 16) if absolute else None
        self.operands = [self.operand(word.strip()) for word in re.split(r',(?![^\[]*\])', rest) if word.strip()]
        if self.vector() and not self.name.startswith('v'):
            self.as_avx()

    def vector(self):
        return any(isinstance(operand, Vector) for operand in self.operands)

    def as_avx(self):
        """The three operands of an instruction that has two."""
        self.legacy = True
        to_memory = isinstance(self.operands[0], (Memory, Register))
        moved = MERGING.match(self.name) and not to_memory
        if re.match(r'movs[sd]$', self.name) and any(isinstance(o, Memory) for o in self.operands):
            moved = False
        if not SSE.match(self.name):
            return
        if moved or not NOT_READ.match(self.name):
            self.operands.insert(0, self.operands[0])
        self.name = 'v' + self.name

    legacy = False

    def operand(self, word):
        word = re.sub(r'\b[cdes]s:', '', word)
        vector = re.fullmatch(r'([xy])mm(\d+)', word)
        if vector:
            return Vector(int(vector[2]), 16 if vector[1] == 'x' else 32)
        if word in REGISTERS:
            return REGISTERS[word]
        if re.fullmatch(r'-?0x[0-9a-f]+|\d+', word):
            return Number(int(word, 16))
        target = re.fullmatch(r'([0-9a-f]+) <(.*)>', word)
        if target:
            return Target(int(target[1], 16), target[2])
        place = re.fullmatch(r'(?:(\w+) PTR )?\[(.*)\]', word)
        if place:
            return self.memory(SIZES.get(place[1], 0), place[2])
        return word

    def memory(self, size, text):
        base, index, scale, offset = None, None, 1, 0
        for sign, part in re.findall(r'([+-]?)([^+-]+)', text):
            word, _, times = part.partition('*')
            if word == 'rip':
                return Memory(size, None, None, 1, self.absolute)
            if word in ('riz', 'eiz'):
                continue
            if times or word in REGISTERS and base is not None:
                index, scale = word, int(times or 1)
            elif word in REGISTERS:
                base = word
            else:
                offset += int(word, 16) * (-1 if sign == '-' else 1)
        return Memory(size, base, index, scale, offset)


def output(words):
    try:
        ended = subprocess.run(words, capture_output=True, text=True, errors='replace', stdin=subprocess.DEVNULL)
    except OSError as fault:
        raise Fault(f'{words[0]}: {fault.strerror} (Debian: apt-get install binutils)')
    if ended.returncode:
        raise Fault(f'{words[0]} ended with {ended.returncode}: {(ended.stderr.strip().splitlines() or [""])[0][:200]}')
    return ended.stdout


class Object:
    """An object of x86-64: a relocatable one, which is linked with itself, a shared one or a program."""

    def __init__(self, path):
        try:
            with open(path, 'rb') as file:
                data = file.read()
        except OSError as fault:
            raise Fault(f'{path}: {fault.strerror}')
        if data[:6] != b'\x7fELF\x02\x01' or len(data) < 64 or struct.unpack_from('<H', data, 18)[0] != 62:
            raise Fault(f'{path}: no object of x86-64')
        self.path, self.shown, self.called = path, {}, {}
        if struct.unpack_from('<H', data, 16)[0] == RELOCATABLE:
            data, text = self.linked()
            listing = output(['objdump', '-dr', '-M', 'intel', '--no-show-raw-insn', path])
            self.shown = symbols_of(listing)
            self.called = {int(address, 16): name for address, name in CALLED.findall(listing)}
        else:
            text = output(['objdump', '-d', '-M', 'intel', '--no-show-raw-insn', path])
        self.data, self.symbols, self.instructions = data, symbols_of(text), {}
        self.segments = list(segments(data, path))
        self.read_instructions(text)
        self.starts = sorted((address, name) for name, address in self.symbols.items())

    def linked(self):
        with tempfile.TemporaryDirectory() as folder:
            path = os.path.join(folder, 'linked')
            output(['ld', '--unresolved-symbols=ignore-all', '-z', 'noexecstack', '-e', '0', '-o', path, self.path])
            with open(path, 'rb') as file:
                return file.read(), output(['objdump', '-d', '-M', 'intel', '--no-show-raw-insn', path])

    def read_instructions(self, text):
        rows = [(int(address, 16), words) for address, words in re.findall(r'^\s+([0-9a-f]+):\t(.*)$', text, re.M)]
        for (address, words), (after, _) in zip(rows, rows[1:] + [(None, '')]):
            self.instructions[address] = (after, words)

    def instruction(self, address):
        found = self.instructions.get(address)
        if found is None:
            raise Refused('unknown instruction', 'no code there')
        if isinstance(found, tuple):
            found = self.instructions[address] = Instruction(address, *found)
        return found

    def start(self, name):
        if name not in self.symbols:
            some = ', '.join(sorted(word for word in self.symbols if '@' not in word and not word.startswith(('_', '.')))[:8])
            raise Fault(f'{self.path}: no function {name}' + (f'; there are {some}' if some else ''))
        return self.symbols[name]

    def place(self, address):
        """The address as objdump shows it of the object, the name of its function and the address in it."""
        at = bisect.bisect_right(self.starts, (address, '\xff')) - 1
        start, name = self.starts[at] if at >= 0 else (address, '')
        return self.shown.get(name, start) + address - start, name, address - start

    def address(self, address):
        """The address as a line has it."""
        shown, name, within = self.place(address)
        return f'{shown:x} <{name}+0x{within:x}>' if name else f'{shown:x}'

    def callee(self, address, target):
        """The name of what an instruction calls or jumps to."""
        return self.called.get(self.place(address)[0], target.name.removesuffix('@plt'))

    def constant(self, address, size):
        """Bytes that cannot be written."""
        for start, length, offset, flags in self.segments:
            if start <= address and address + size <= start + length and not flags & WRITABLE:
                return self.data[offset + address - start:offset + address - start + size]
        raise Refused('variable address', 'a variable of the file')


def symbols_of(text):
    return {name: int(address, 16) for address, name in re.findall(r'^([0-9a-f]+) <(.*)>:$', text, re.M)}


def segments(data, path):
    """Of each part that is loaded its address, its length, its offset in the file and its flags."""
    try:
        first, size, count = *struct.unpack_from('<Q', data, 32), *struct.unpack_from('<HH', data, 54)
        for k in range(count):
            kind, flags, offset, address, _, length, _, _ = struct.unpack_from('<IIQQQQQQ', data, first + k * size)
            if kind == LOADED:
                yield address, length, offset, flags
    except struct.error:
        raise Fault(f'{path}: no object of x86-64')
