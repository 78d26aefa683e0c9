"""The units of a kernel as `terms` numbers them: integer parameters, then loads, operations and stores in the order in which they run;
and what each is on some memories, all of them at once.

What is the same on all of these is taken for the same: a hint for a picture, and no proof.
"""
import random, re

import row_terms

SAMPLES = 14
SIGN_NAMES = {'+': 'add', '-': 'sub', '*': 'mul', '&': 'and', '|': 'or', '^': 'xor'}


class Unit:
    """A parameter, load, operation or store: its number, its name, the width of what it gives or stores in bits, its operands (numbers of
    units, or literals as (number, width)), the line of its statement, and for loads and stores pointer and offset."""
    __slots__ = ('number', 'kind', 'name', 'width', 'operands', 'amount', 'line', 'place', 'sample')

    def __init__(self, number, kind, name, width, operands=(), amount=0, line=0, place=None):
        self.number, self.kind, self.name, self.width, self.operands = number, kind, name, width, operands
        self.amount, self.line, self.place, self.sample = amount, line, place, None

    def label(self):
        """What stands in the box of a picture."""
        if self.place:
            return f'{self.place[0]}{self.place[1]:+d}'
        return f'{self.name}{self.width}' if self.kind == 'operation' else self.name


class Memory:
    """The bytes below each pointer, which meet no others, each on all samples; what was not written is at random, and the same for all
    that begin with the same bytes."""

    def __init__(self, initial):
        self.initial, self.written = initial, {}

    def byte(self, key):
        if key in self.written:
            return self.written[key]
        if key not in self.initial:
            rng = random.Random(repr(key))
            self.initial[key] = tuple(byte_of(rng, sample) for sample in range(SAMPLES))
        return self.initial[key]

    def load(self, pointer, offset, size):
        """The number that so many bytes are, on each sample."""
        rows = [self.byte((pointer, offset + at)) for at in range(size)]
        return tuple(int.from_bytes(bytes(column), 'little') for column in zip(*rows))

    def store(self, pointer, offset, size, numbers):
        columns = [number.to_bytes(size, 'little') for number in numbers]
        for at in range(size):
            self.written[pointer, offset + at] = tuple(column[at] for column in columns)


def byte_of(rng, sample):
    """A byte of a sample: of any kind, mostly small numbers, or the ends of ranges."""
    if sample % 7 < 3:
        return rng.randrange(256)
    if sample % 7 < 5:
        return rng.choice((0, 0, rng.randrange(256)))
    return rng.choice((0, 1, 127, 128, 255, rng.randrange(256)))


def argument(name, width):
    """What an integer parameter is on each sample."""
    rng = random.Random('argument ' + name)
    return tuple(rng.randrange(2**width) if sample % 2 else rng.randrange(8) for sample in range(SAMPLES))


def operation(name, width, amount, parts, before):
    """What an operation gives on each sample. `before` is the width of the first of its operands."""
    if name in ('shl', 'lshr'):
        return tuple((x << amount) % 2**width if name == 'shl' else x >> amount for x in parts[0])
    if name == 'ashr':
        return tuple((row_terms.signed(x, width) >> amount) % 2**width for x in parts[0])
    if name == 'sext':
        return tuple(row_terms.signed(x, before) % 2**width for x in parts[0])
    if name in ('zext', 'trunc'):
        return tuple(x % 2**width for x in parts[0])
    if name == 'select':
        return tuple(x if bit else y for bit, x, y in zip(*parts))
    if name == 'sub':
        return tuple((x - y) % 2**width for x, y in zip(*parts))
    made = row_terms.ARITHMETIC[name]
    return tuple(int(made(x, y, before)) % 2**width for x, y in zip(*parts))


class Units:
    """The units of a kernel, or of so many turns of a loop."""

    def __init__(self, kernel, turns=1):
        self.units, self.names = [], {}
        for name, kind in kernel.parameters:
            if not kind.endswith('ptr'):
                self.names[name] = self.put('parameter', name, int(kind[1:]))
        found = re.match(r' times (\w+) step (.*)', kernel.behind)
        self.steps = {name: int(step) for name, step in (part.split() for part in found[2].split(','))} if found else {}
        given = dict(self.names)
        for turn in range(turns):
            self.names, self.turn = dict(given), turn
            for statement in kernel.statements:
                self.statement(statement)

    def put(self, kind, name, width, **more):
        self.units.append(Unit(len(self.units), kind, name, width, **more))
        return self.units[-1].number

    def place(self, pointer, offset):
        return pointer, offset + self.turn * self.steps.get(pointer, 0)

    def statement(self, statement):
        self.line = statement.line
        value = self.expression(statement.value)
        if statement.is_store():
            place = self.place(statement.pointer, statement.offset)
            self.put('store', f'store{statement.width}', statement.width, operands=(value,), line=self.line, place=place)
        else:
            self.names[statement.name] = value

    def width(self, operand):
        return operand[1] if isinstance(operand, tuple) else self.units[operand].width

    def expression(self, tree):
        """The number of the unit, or a literal."""
        kind = tree[0]
        if kind == 'name':
            return self.names[tree[1]]
        if kind == 'number':
            return tree[1] % 2**tree[2], tree[2]
        if kind == 'load':
            return self.put('load', f'load{tree[1]}', tree[1], line=self.line, place=self.place(tree[2], tree[3]))
        if kind == 'two':
            operands = self.expression(tree[2]), self.expression(tree[3])
            return self.put('operation', SIGN_NAMES[tree[1]], self.width(operands[0]), operands=operands, line=self.line)
        return self.call(tree[1], tree[2:])

    def call(self, word, parts):
        if word in ('shl', 'lshr', 'ashr'):
            inner = self.expression(parts[0])
            return self.put('operation', word, self.width(inner), operands=(inner,), amount=parts[1], line=self.line)
        operands = tuple(self.expression(part) for part in parts)
        cast = re.fullmatch(r'(sext|zext|trunc)(\d+)', word)
        if cast:
            return self.put('operation', cast[1], int(cast[2]), operands=operands, line=self.line)
        width = 1 if word in ('eq', 'slt', 'ult') else self.width(operands[-1])
        return self.put('operation', word, width, operands=operands, line=self.line)

    def run(self, memory):
        """Finds what each unit gives, or stores, on each sample."""
        def sample(operand):
            return (operand[0],) * SAMPLES if isinstance(operand, tuple) else self.units[operand].sample
        for unit in self.units:
            if unit.kind == 'parameter':
                unit.sample = argument(unit.name, unit.width)
            elif unit.kind == 'load':
                unit.sample = memory.load(*unit.place, unit.width // 8)
            elif unit.kind == 'store':
                unit.sample = sample(unit.operands[0])
                memory.store(*unit.place, unit.width // 8, unit.sample)
            else:
                before = self.width(unit.operands[0])
                unit.sample = operation(unit.name, unit.width, unit.amount, [sample(one) for one in unit.operands], before)
