"""The words of LLVM's textual IR, and the types, values and parts of a module that they spell."""
import re
from dataclasses import dataclass, field
from typing import Any

WORD = re.compile(r'''\s+ | (?P<comment>;.*$) | (?P<string>c?"[^"]*") | (?P<local>%(?:"[^"]*"|[\w.$-]+)) | (?P<global>@(?:"[^"]*"|[\w.$-]+))
    | (?P<metadata>!(?:"[^"]*"|[\w.$-]*)) | (?P<group>\#\w+) | (?P<hex>0x[KLMHR]?[0-9A-Fa-f]+) | (?P<real>[-+]?\d+\.\d*(?:[eE][-+]?\d+)?)
    | (?P<number>-?\d+) | (?P<word>[A-Za-z_.$][\w.$-]*) | (?P<sign>[][(){}<>,=*:|^])''', re.X)
FLOATS = {'half': 2, 'bfloat': 2, 'float': 4, 'double': 8, 'x86_fp80': 16, 'fp128': 16, 'ppc_fp128': 16}
FLAGS = {'nuw', 'nsw', 'exact', 'inbounds', 'nusw', 'nneg', 'disjoint', 'samesign', 'fast', 'nnan', 'ninf', 'nsz', 'arcp', 'contract',
         'afn', 'reassoc'}
BINARY = {'add', 'sub', 'mul', 'udiv', 'sdiv', 'urem', 'srem', 'shl', 'lshr', 'ashr', 'and', 'or', 'xor', 'fadd', 'fsub', 'fmul', 'fdiv',
          'frem'}
CASTS = {'trunc', 'zext', 'sext', 'fptrunc', 'fpext', 'fptoui', 'fptosi', 'uitofp', 'sitofp', 'ptrtoint', 'inttoptr', 'bitcast',
         'addrspacecast'}
DEEPEST = 60


class Malformed(Exception):
    """What is no IR: a line of the file, and what stands there."""

    def __init__(self, line, what):
        super().__init__(f'{line}: {what}')
        self.line, self.what = line, what


# Types


@dataclass(frozen=True)
class Integer:
    bits: int

    def __str__(self):
        return f'i{self.bits}'


@dataclass(frozen=True)
class Float:
    name: str

    def __str__(self):
        return self.name


@dataclass(frozen=True)
class Pointer:
    """A pointer; what it points to is of no use here."""
    space: int = 0

    def __str__(self):
        return 'a pointer' if self.space == 0 else f'a pointer of address space {self.space}'


@dataclass(frozen=True)
class Array:
    count: int
    of: Any

    def __str__(self):
        return f'[{self.count} x {self.of}]'


@dataclass(frozen=True)
class Vector:
    count: int
    of: Any

    def __str__(self):
        return f'<{self.count} x {self.of}>'


@dataclass(frozen=True)
class Struct:
    fields: tuple
    packed: bool = False

    def __str__(self):
        return '{ ' + ', '.join(map(str, self.fields)) + ' }'


@dataclass(frozen=True)
class Named:
    name: str

    def __str__(self):
        return self.name


@dataclass(frozen=True)
class Other:
    """`void`, `label`, `metadata`, `token`, the type of a function, and others that hold no number."""
    word: str

    def __str__(self):
        return self.word


# Values


@dataclass(frozen=True)
class Local:
    name: str


@dataclass(frozen=True)
class Global:
    name: str


@dataclass(frozen=True)
class Number:
    value: int


@dataclass(frozen=True)
class Zero:
    """`zeroinitializer` or `null`."""


@dataclass(frozen=True)
class Undefined:
    """`undef` or `poison`."""
    word: str


@dataclass(frozen=True)
class Aggregate:
    """The elements of an array, a structure or a vector, each with its type."""
    parts: tuple


@dataclass(frozen=True)
class Bytes:
    data: bytes


@dataclass(frozen=True)
class Expression:
    """A constant expression: its opcode, for `getelementptr` the type that is walked, its operands with their types."""
    op: str
    over: Any
    operands: tuple


@dataclass(frozen=True)
class Unread:
    """A value of a form that means nothing to a kernel: a real number, metadata, an address of a block."""
    text: str


@dataclass
class Instruction:
    """`name` is None where nothing is given; `parts` has what the opcode wants; `line` is that of the file."""
    name: Any
    op: str
    line: int
    flags: frozenset = frozenset()
    parts: dict = field(default_factory=dict)
    location: Any = None


@dataclass
class Parameter:
    name: str
    type: Any
    attributes: frozenset


@dataclass
class Function:
    name: str
    result: Any
    result_attributes: frozenset
    parameters: list
    line: int
    variadic: bool
    blocks: dict
    location: Any = None


@dataclass
class Variable:
    """A global variable: its type and its first value, or None where another file may give it another."""
    type: Any
    value: Any


def unquoted(word):
    """A name without its quotes, and with the bytes that its escapes mean."""
    if word.startswith('"'):
        return re.sub(r'\\([0-9A-Fa-f]{2})', lambda found: chr(int(found.group(1), 16)), word[1:-1])
    return word


class Words:
    """The words of one line or a few, which are read from the left."""

    def __init__(self, text, line):
        self.line, self.at, self.words = line, 0, []
        start = 0
        while start < len(text):
            found = WORD.match(text, start)
            if not found:
                raise Malformed(line, f'no word of IR: {text[start:start + 20]!r}')
            if found.lastgroup == 'comment':
                break
            if found.lastgroup:
                self.words.append((found.lastgroup, found.group()))
            start = found.end()

    def fault(self, what):
        return Malformed(self.line, what)

    def peek(self, ahead=0):
        return self.words[self.at + ahead][1] if self.at + ahead < len(self.words) else ''

    def kind(self, ahead=0):
        return self.words[self.at + ahead][0] if self.at + ahead < len(self.words) else ''

    def take(self):
        if self.at >= len(self.words):
            raise self.fault('the line ends early')
        self.at += 1
        return self.words[self.at - 1][1]

    def found(self, word):
        """Whether the next word is this one, which is then taken."""
        if self.peek() != word or self.kind() == 'string':
            return False
        self.at += 1
        return True

    def want(self, word):
        if not self.found(word):
            raise self.fault(f'{word!r} has to stand where {self.peek()!r} stands')

    def number(self):
        if self.kind() != 'number' or len(self.peek()) > 40:
            raise self.fault(f'a number has to stand where {self.peek()[:40]!r} stands')
        return int(self.take())

    def flags(self):
        taken = set()
        while self.kind() == 'word' and (self.peek() in FLAGS or self.peek() == 'inrange'):
            taken.add(self.take())
            if self.peek() == '(' and 'inrange' in taken:
                self.parentheses()
        return frozenset(taken)

    def parentheses(self):
        """Takes what stands in parentheses, whatever it is."""
        self.want('(')
        depth = 1
        while depth:
            word = self.take()
            depth += (word == '(') - (word == ')')

    # Types

    def type(self, depth=0):
        if depth > DEEPEST:
            raise self.fault('types are nested too deep')
        read = self.simple_type(depth)
        while True:
            if self.peek() == 'addrspace':
                self.at += 1
                self.want('(')
                space = self.number()
                self.want(')')
                read = Pointer(space)
                self.found('*')
            elif self.found('*'):
                read = Pointer()
            elif self.peek() == '(':
                self.parentheses()
                read = Other('function')
            else:
                return read

    def simple_type(self, depth):
        word = self.take()
        kind = self.words[self.at - 1][0]
        if kind == 'local':
            return Named(word)
        if word == '[':
            return self.counted(Array, ']', depth)
        if word == '{':
            return self.structure(False, depth)
        if word == '<':
            if self.found('{'):
                made = self.structure(True, depth)
                self.want('>')
                return made
            if self.found('vscale'):
                self.want('x')
            return self.counted(Vector, '>', depth)
        bits = re.fullmatch(r'i(\d{1,9})', word)
        if bits:
            return Integer(int(bits.group(1)))
        if word in FLOATS:
            return Float(word)
        if word == 'ptr':
            return Pointer()
        if word == 'x86_mmx':
            return Vector(1, Integer(64))
        if word == 'target' and self.peek() == '(':
            self.parentheses()
            return Other('target')
        if word in ('void', 'label', 'metadata', 'token', 'opaque', 'x86_amx'):
            return Other(word)
        raise self.fault(f'no type: {word[:40]!r}')

    def counted(self, kind, close, depth):
        count = self.number()
        self.want('x')
        of = self.type(depth + 1)
        self.want(close)
        return kind(count, of)

    def structure(self, packed, depth):
        fields = []
        while not self.found('}'):
            if fields:
                self.want(',')
            fields.append(self.type(depth + 1))
        return Struct(tuple(fields), packed)

    # Values

    def value(self, depth=0):
        if depth > DEEPEST:
            raise self.fault('constants are nested too deep')
        kind, word = self.kind(), self.take()
        if kind == 'local':
            return Local(unquoted(word[1:]))
        if kind == 'global':
            return Global(unquoted(word[1:]))
        if kind == 'number':
            self.at -= 1
            return Number(self.number())
        if kind == 'string' and word.startswith('c'):
            return Bytes(unquoted(word[1:]).encode('latin-1', 'replace'))
        if word in ('[', '{', '<'):
            return self.aggregate(word, depth)
        simple = {'true': Number(1), 'false': Number(0), 'null': Zero(), 'none': Zero(), 'zeroinitializer': Zero(),
                  'undef': Undefined('undef'), 'poison': Undefined('poison')}.get(word)
        if simple:
            return simple
        if kind in ('real', 'hex'):
            return Unread(word)
        if kind == 'word':
            return self.expression(word, depth)
        raise self.fault(f'no value: {word[:40]!r}')

    def aggregate(self, opened, depth):
        packed = opened == '<' and self.found('{')
        close, parts = {'[': ']', '{': '}', '<': '}' if packed else '>'}[opened], []
        while not self.found(close):
            if parts:
                self.want(',')
            of = self.type()
            parts.append((of, self.value(depth + 1)))
        if packed:
            self.want('>')
        return Aggregate(tuple(parts))

    def expression(self, op, depth):
        """A constant expression, after its opcode."""
        if op in ('blockaddress', 'dso_local_equivalent', 'no_cfi', 'asm'):
            while self.peek() and self.peek() not in (',', ')'):
                self.parentheses() if self.peek() == '(' else self.take()
            return Unread(op)
        if op not in BINARY | CASTS and op not in ('getelementptr', 'icmp', 'fcmp', 'select', 'splat', 'extractelement', 'insertelement',
                                                   'shufflevector', 'ptrauth'):
            raise self.fault(f'no value: {op[:40]!r}')
        self.flags()
        if op in ('icmp', 'fcmp'):
            self.take()
        self.want('(')
        over = None
        if op == 'getelementptr':
            over = self.type()
            self.want(',')
        operands = []
        while not self.found(')'):
            if operands:
                self.found('to') if op in CASTS else self.want(',')
            if op in CASTS and operands:
                operands.append((self.type(), None))
                continue
            self.flags()
            of = self.type()
            operands.append((of, self.value(depth + 1)))
        return Expression(op, over, tuple(operands))

    def typed(self):
        """A type and a value, attributes between them left out."""
        of = self.type()
        self.attributes()
        return of, Unread(self.metadata()) if str(of) == 'metadata' else self.value()

    def metadata(self):
        """An operand of metadata, of whatever form, up to the comma or parenthesis after it."""
        start, depth = self.at, 0
        while self.peek() and (depth or self.peek() not in (',', ')')):
            word = self.take()
            depth += (word in ('(', '{', '[')) - (word in (')', '}', ']'))
        return ' '.join(word for _, word in self.words[start:self.at])

    def attributes(self):
        """Attributes of a parameter, a result or a function: their words."""
        taken = set()
        while self.kind() in ('word', 'group', 'string'):
            word = self.peek()
            if self.kind() == 'word' and (is_value(word) or is_type(word)):
                break
            if self.kind() == 'string' and word.startswith('c"'):
                break
            self.at += 1
            taken.add(word)
            if word in ('align', 'alignstack', 'cc') and self.kind() == 'number':
                self.at += 1
            elif self.peek() == '(':
                self.parentheses()
            elif self.found('='):
                self.take()
        return frozenset(taken)


def is_value(word):
    """Whether a word of letters begins a value."""
    return word in ('true', 'false', 'null', 'none', 'undef', 'poison', 'zeroinitializer', 'getelementptr', 'blockaddress', 'icmp', 'fcmp',
                    'select', 'dso_local_equivalent', 'no_cfi', 'asm', 'splat', 'extractelement', 'insertelement', 'shufflevector') \
        or word in BINARY or word in CASTS


def is_type(word):
    return bool(re.fullmatch(r'i\d{1,9}', word)) or word in FLOATS \
        or word in ('ptr', 'void', 'label', 'metadata', 'token', 'opaque', 'x86_mmx', 'x86_amx', 'target')
