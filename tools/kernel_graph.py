"""Kernels as graphs of values, and their texts: what becomes a name and what stands in an expression.

A graph is made from the top: a value after those that it is made of, loads and stores in their order. `text` writes the kernel
(docs/kernel.md). A value that is used once stands where it is used, any other has a name; a load has one as well where a store that
may meet it comes between it and its use, so that it stays where it was made.
"""
import bisect, re, textwrap

RESERVED = {'kernel', 'ptr', 'noalias', 'i8', 'i16', 'i32', 'i64', 'shl', 'lshr', 'ashr', 'eq', 'slt', 'ult', 'select', 'smin', 'smax',
            'umin', 'umax', *(word + width for word in ('load', 'store', 'sext', 'zext', 'trunc') for width in ('8', '16', '32', '64'))}
WIDTHS = (8, 16, 32, 64)
SIGNS = {'mul': ('*', 1), 'add': ('+', 2), 'sub': ('-', 2), 'and': ('&', 3), 'xor': ('^', 4), 'or': ('|', 5)}
SHIFTS = ('shl', 'lshr', 'ashr')
CASTS = ('sext', 'zext', 'trunc')
COMPARISONS = ('eq', 'slt', 'ult')
MOST_PARAMETERS, MOST_STATEMENTS, MOST_OPERATIONS, MOST_BYTES, DEEPEST = 16, 4096, 8192, 262144, 100


class TooMany(Exception):
    """A kernel past a limit of the language."""


def signed(number, width):
    return number - (1 << width) if number >> (width - 1) else number


class Value:
    """What an operation, a load, a parameter or a literal gives. A comparison has the width 1; `number` is that of a literal, the
    places that a shift moves by, or the offset of a load; `pointer` is the parameter through which a load goes."""
    __slots__ = ('op', 'width', 'operands', 'number', 'pointer', 'line', 'forms', 'order')

    def __init__(self, op, width, operands=(), number=0, pointer=None, line=None):
        self.op, self.width, self.operands, self.number, self.pointer = op, width, operands, number, pointer
        self.line, self.forms, self.order = line, (None, None), 0

    def is_same(self, other):
        return self is other or (self.op == other.op == 'literal' and (self.width, self.number) == (other.width, other.number))


class Store:
    """A store of a value at an offset from a pointer."""
    __slots__ = ('pointer', 'number', 'value', 'order')

    def __init__(self, pointer, number, value):
        self.pointer, self.number, self.value, self.order = pointer, number, value, 0


class Parameter:
    """A parameter of a kernel: `kind` is `ptr` or the type of an integer. `step` is by how much a pointer moves each turn."""

    def __init__(self, name, kind, alone=False, step=0):
        self.name, self.kind, self.alone, self.step = name, kind, alone, step

    def __str__(self):
        return f'{self.name}: {"noalias " if self.alone else ""}{self.kind}'


def literal(width, number):
    return Value('literal', width, number=number % (1 << width))


def clean_name(name, taken):
    """The name as a kernel may have it, and as no other parameter has it."""
    name = re.sub(r'\W', '_', name, flags=re.A) or '_'
    name = ('a' + name if name[0].isdigit() else name)[:56]
    while name in RESERVED or name in taken:
        name += '_'
    return name


class Graph:
    """The values and the stores of a kernel, in the order in which they are made."""

    def __init__(self):
        self.items, self.stores = [], 0

    def put(self, item):
        item.order = len(self.items)
        self.items.append(item)
        self.stores += isinstance(item, Store)
        return item

    def live(self):
        """How often each value is used by what is left; loads and stores are always left."""
        uses = {}
        for item in reversed(self.items):
            if isinstance(item, Store):
                operands = [item.value]
            elif item.op == 'load' or uses.get(item):
                operands = item.operands
                uses.setdefault(item, 0)
            else:
                continue
            for operand in operands:
                uses[operand] = uses.get(operand, 0) + 1
        return uses

    def accesses(self):
        """Each load and store as (pointer, offset, bytes)."""
        for item in self.items:
            if isinstance(item, Store):
                yield item.pointer, item.number, item.value.width // 8
            elif item.op == 'load':
                yield item.pointer, item.number, item.width // 8


def may_meet(load, store):
    """Whether a store may write what a load reads, as far as offsets and promises tell."""
    if load.pointer is not store.pointer:
        return not (load.pointer.alone or store.pointer.alone)
    return load.number < store.number + store.value.width // 8 and store.number < load.number + load.width // 8


class Writer:
    """Writes the text of a graph."""

    def __init__(self, graph, parameters):
        self.graph, self.uses = graph, graph.live()
        self.taken, self.names, self.statements, self.operations = {p.name for p in parameters}, {}, [], 0
        self.prefix = next(word for word in ('x', 'y', 'v', 'value', 'x_', 'value_') if not any(
            re.fullmatch(word + r'\d+', name) for name in self.taken))
        self.depths, self.named = {}, set()
        self.choose()
        self.hold_loads()
        for item in graph.items:
            self.item(item)

    def left(self):
        """The values that are left, in their order."""
        return (item for item in self.graph.items if isinstance(item, Value) and item in self.uses)

    def choose(self):
        """Which values get names: those of more than one use or none, and those of which an expression would be too deep."""
        for value in self.left():
            depth = 2 + max((self.depths.get(operand, 1) for operand in value.operands), default=0)
            is_named = self.uses[value] != 1 or depth > DEEPEST
            if is_named:
                self.named.add(value)
            self.depths[value] = 1 if is_named else depth

    def hold_loads(self):
        """Gives a name to each load that its expression would move past a store that may meet it."""
        users = {}
        for item in self.graph.items:
            for operand in [item.value] if isinstance(item, Store) else item.operands if item in self.uses else ():
                users[operand] = item
        stores = [item for item in self.graph.items if isinstance(item, Store)]
        orders = [store.order for store in stores]
        ends = {}
        for item in reversed(self.graph.items):
            if isinstance(item, Store) or item in self.named:
                ends[item] = item.order
            elif item in self.uses:
                ends[item] = ends[users[item]]
                if item.op == 'load':
                    between = stores[bisect.bisect(orders, item.order):bisect.bisect_left(orders, ends[item])]
                    if any(may_meet(item, store) for store in between):
                        self.named.add(item)

    def item(self, item):
        if isinstance(item, Store):
            self.operations += 1
            self.statements.append(f'store{item.value.width}({self.place(item)}, {self.expression(item.value)[0]});')
        elif item in self.named:
            text = self.made(item)[0]
            self.names[item] = f'{self.prefix}{len(self.names)}'
            self.statements.append(f'{self.names[item]} = {text};')

    def place(self, item):
        return f'{item.pointer.name} {"-" if item.number < 0 else "+"} {abs(item.number)}'

    def expression(self, value):
        """The text of a value and how loosely its operator binds, 0 where nothing need stand around it."""
        if value.op == 'parameter':
            return value.pointer.name, 0
        if value.op == 'literal':
            return min(str(signed(value.number, value.width)), str(value.number), key=len) + f'i{value.width}', 0
        if value in self.names:
            return self.names[value], 0
        return self.made(value)

    def made(self, value):
        self.operations += 1
        if value.op == 'load':
            return f'load{value.width}({self.place(value)})', 0
        if value.op in SIGNS:
            sign, level = SIGNS[value.op]
            (first, one), (second, two) = map(self.expression, value.operands)
            first = f'({first})' if one > level else first
            second = f'({second})' if two >= level else second
            return f'{first} {sign} {second}', level
        inner = [self.expression(operand)[0] for operand in value.operands]
        if value.op in SHIFTS:
            inner.append(str(value.number))
        name = f'{value.op}{value.width}' if value.op in CASTS else value.op
        return f'{name}({", ".join(inner)})', 0


def text(name, graph, parameters, notes=(), times=None):
    """The text of a kernel, or with `times`, the name of its count, of a loop. `notes` are lines of comment above it."""
    writer = Writer(graph, parameters)
    for many, most, what in ((len(parameters), MOST_PARAMETERS, 'parameters'), (len(writer.statements), MOST_STATEMENTS, 'statements'),
                             (writer.operations - graph.stores, MOST_OPERATIONS, 'loads and operations')):
        if many > most:
            raise TooMany(f'{many} {what}, of {most} at most')
    head = f'{"loop" if times else "kernel"} {name}({", ".join(map(str, parameters))})'
    if times:
        head += f' times {times} step ' + ', '.join(f'{p.name} {p.step}' for p in parameters if p.step)
    lines = [f'// {note}' for note in notes] + wrapped(head + ' {', '')
    for statement in writer.statements:
        lines += wrapped(statement, '  ')
    made = '\n'.join(lines) + '\n}\n'
    if len(made) > MOST_BYTES:
        raise TooMany(f'{len(made)} bytes of text, of {MOST_BYTES} at most')
    return made


def wrapped(line, indent):
    return textwrap.wrap(line, 100, initial_indent=indent, subsequent_indent=indent + '  ', break_long_words=False, break_on_hyphens=False)


def cost(graph):
    """The scalar cost of a kernel: its loads, operations and stores."""
    return graph.stores + sum(value.op not in ('literal', 'parameter') for value in graph.live())
