"""Texts of kernels and loops as trees, with the line of each statement, and written again.

It reads what `vegen` accepts (docs/kernel.md) and judges little: a text goes through the program first. Expressions are tuples:
`('name', NAME)`, `('number', VALUE, WIDTH)`, `('load', WIDTH, POINTER, OFFSET)`, `('two', SIGN, X, Y)` with a sign of `+ - * & ^ |`, and
`('call', FUNCTION, X, ..)`, whose last part is the number of places of a shift.
"""
import re, sys

SIGNS = ['|', '^', '&', '+-', '*']
WORD = re.compile(rb'\s+|//[^\n]*|(\d+(?:i(?:8|16|32|64))?|[A-Za-z_]\w*|[^\s])', re.ASCII)

# 256 nodes below each other, which a kernel may have, take eight calls each.
sys.setrecursionlimit(max(8000, sys.getrecursionlimit()))


class Statement:
    """A statement: the name that it gives, or the width, pointer and offset of a store; its expression; its line, from 1."""

    def __init__(self, line, value, name=None, width=None, pointer=None, offset=None):
        self.line, self.value, self.name = line, value, name
        self.width, self.pointer, self.offset = width, pointer, offset

    def is_store(self):
        return self.name is None

    def with_value(self, value):
        return Statement(self.line, value, self.name, self.width, self.pointer, self.offset)

    def text(self):
        if self.name is not None:
            return f'{self.name} = {written(self.value)};'
        return f'store{self.width}({place(self.pointer, self.offset)}, {written(self.value)});'


class Kernel:
    """A kernel, or a loop, whose words before the body stand as they were but for `noalias`."""

    def __init__(self, word, name, parameters, behind, statements):
        self.word, self.name, self.parameters = word, name, parameters
        self.behind, self.statements = behind, statements

    def is_loop(self):
        return self.word == 'loop'

    def pointers(self):
        return [name for name, kind in self.parameters if kind.endswith('ptr')]

    def with_noalias(self, names):
        """The same with these pointers noalias too."""
        parameters = [(name, 'noalias ptr' if name in names else kind) for name, kind in self.parameters]
        return Kernel(self.word, self.name, parameters, self.behind, self.statements)

    def with_statements(self, statements):
        return Kernel(self.word, self.name, self.parameters, self.behind, statements)

    def text(self):
        parameters = ', '.join(f'{name}: {kind}' for name, kind in self.parameters)
        lines = ''.join(f'  {statement.text()}\n' for statement in self.statements)
        return f'{self.word} {self.name}({parameters}){self.behind} {{\n{lines}}}\n'


def place(pointer, offset):
    return f'{pointer} {"-" if offset < 0 else "+"} {abs(offset)}'


def written(tree):
    """The text of an expression, with parentheses around what is joined by a sign."""
    kind = tree[0]
    if kind == 'name':
        return tree[1]
    if kind == 'number':
        return f'{tree[1]}i{tree[2]}'
    if kind == 'load':
        return f'load{tree[1]}({place(tree[2], tree[3])})'
    if kind == 'two':
        return f'({written(tree[2])} {tree[1]} {written(tree[3])})'
    return f'{tree[1]}({", ".join(str(part) if isinstance(part, int) else written(part) for part in tree[2:])})'


class Reader:
    def __init__(self, text):
        self.words = [(found.group(1).decode('latin-1'), text.count(b'\n', 0, found.start()) + 1)
                      for found in WORD.finditer(text) if found.group(1)]
        self.at = 0

    def next(self):
        return self.words[self.at][0] if self.at < len(self.words) else ''

    def take(self, wanted=None):
        word = self.next()
        if word == '' or (wanted is not None and word != wanted):
            raise ValueError(f'{wanted or "a word"} is wanted in the place of `{word}`')
        self.at += 1
        return word

    def kernel(self):
        word, name = self.take(), self.take()
        self.take('(')
        parameters = []
        while self.next() != ')':
            parameter = self.take()
            self.take(':')
            kind = self.take()
            parameters.append((parameter, f'noalias {self.take()}' if kind == 'noalias' else kind))
            if self.next() == ',':
                self.take()
        self.take(')')
        behind = []
        while self.next() != '{':
            behind.append(self.take())
        self.take('{')
        statements = []
        while self.next() != '}':
            statements.append(self.statement())
        return Kernel(word, name, parameters, ''.join(f' {part}' for part in behind).replace(' ,', ','), statements)

    def statement(self):
        line, word = self.words[min(self.at, len(self.words) - 1)][1], self.take()
        if re.fullmatch(r'store(8|16|32|64)', word):
            self.take('(')
            pointer, offset = self.place()
            self.take(',')
            value = self.expression(0)
            self.take(')')
            self.take(';')
            return Statement(line, value, width=int(word[5:]), pointer=pointer, offset=offset)
        self.take('=')
        value = self.expression(0)
        self.take(';')
        return Statement(line, value, name=word)

    def place(self):
        pointer, offset = self.take(), 0
        if self.next() in '+-' and self.next():
            sign = self.take()
            offset = int(self.take()) * (-1 if sign == '-' else 1)
        return pointer, offset

    def expression(self, level):
        if level == len(SIGNS):
            return self.operand()
        left = self.expression(level + 1)
        while self.next() and self.next() in SIGNS[level]:
            sign = self.take()
            left = ('two', sign, left, self.expression(level + 1))
        return left

    def operand(self):
        word = self.take()
        if word == '(':
            inner = self.expression(0)
            self.take(')')
            return inner
        if word == '-':
            number = self.take()
            value, width = number.split('i')
            return ('number', -int(value), int(width))
        if word[0].isdigit():
            value, width = word.split('i')
            return ('number', int(value), int(width))
        if self.next() != '(':
            return ('name', word)
        self.take('(')
        if word.startswith('load'):
            pointer, offset = self.place()
            self.take(')')
            return ('load', int(word[4:]), pointer, offset)
        parts = [self.expression(0)]
        while self.next() == ',':
            self.take()
            parts.append(int(self.take()) if word in ('shl', 'lshr', 'ashr') else self.expression(0))
        self.take(')')
        return ('call', word, *parts)


def read_kernel(text):
    """The kernel or loop of a text in bytes. ValueError where it is none."""
    try:
        return Reader(text).kernel()
    except RecursionError:
        raise ValueError('an expression is too deep') from None


def changed(tree, change):
    """A tree with each part, from the innermost on, as `change` makes it."""
    kind = tree[0]
    if kind == 'two':
        tree = (*tree[:2], changed(tree[2], change), changed(tree[3], change))
    elif kind == 'call':
        tree = (*tree[:2], *(part if isinstance(part, int) else changed(part, change) for part in tree[2:]))
    return change(tree)
