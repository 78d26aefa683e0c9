"""Kernels, loops and instruction files at random, of the kinds that compilers and people write and of kinds that nobody would."""
import os, random, re

ELEMENTS = {8: 'byte', 16: 'word', 32: 'dword', 64: 'qword'}
SIGNS = ['+', '-', '&', '|', '^', 'smin', 'smax', 'umin', 'umax', '*']


class RandomKernel:
    """A kernel or a loop by a seed, with its statements one by one, so that it can be made smaller."""

    def __init__(self, seed, kinds=None):
        """Of all kinds, or a kernel of the kinds that are named (`promoted`, `shared`, ..)."""
        self.rng = rng = random.Random(seed)
        self.width = rng.choice([8, 8, 16, 16, 32, 32, 64])
        self.is_loop = rng.random() < 0.2 and not kinds
        self.lanes = rng.choice([1, 2, 4]) if self.is_loop else rng.choice([1, 2, 4, 8, 128 // self.width, 256 // self.width])
        self.used, self.names, self.statements = 0, 0, []
        alone = rng.choice([[True, False, False], [False] * 3, [True] * 3, [rng.random() < 0.5 for _ in range(3)]])
        self.parameters = [f'{p}: {"noalias " if a else ""}ptr' for p, a in zip('dpq', alone)] + [f'k: i{self.width}', 'n: i32']
        rng.choice([getattr(self, kind) for kind in kinds or ['rows', 'rows', 'promoted', 'shared', 'in_place', 'loose']])()

    def text(self, statements=None):
        """The text, of these statements or of all."""
        head = f'({", ".join(self.parameters)})'
        if self.is_loop:
            step = max(1, self.lanes * self.width // 8)
            head = f'loop made{head} times n step d {step}, p {self.rng_step(step)}, q {step}'
        else:
            head = f'kernel made{head}'
        return head + ' {\n' + '\n'.join(self.statements if statements is None else statements) + '\n}\n'

    def rng_step(self, step):
        """How far p goes in a turn of a loop; the same for each text of this kernel."""
        return random.Random(self.width * 1000 + self.lanes).choice([step, 2 * step, 4 * step])

    def put(self, offset, value, width=None):
        self.statements.append(f'store{width or self.width}(d + {offset}, {value});')

    def name(self, value):
        """A name for a value."""
        self.names += 1
        self.statements.append(f'x{self.names} = {value};')
        return f'x{self.names}'

    # ---- rows of one statement for each lane

    def rows(self):
        made, step = self.value(self.width, self.rng.choice([1, 2, 2, 3])), self.width // 8
        for i in range(self.lanes):
            self.put(step * i, made(i))

    def promoted(self):
        """As C does it: narrow numbers, widened, computed with, clamped or cut."""
        narrow = self.rng.choice([8, 16]) if self.width > 16 else self.width
        wide, cast = 4 * narrow if narrow == 8 else 2 * narrow, self.rng.choice(['sext', 'zext'])
        loads = [self.load(narrow) for _ in range(self.rng.choice([2, 2, 3]))]
        low, high = (-(2 ** (narrow - 1)), 2 ** (narrow - 1) - 1) if cast == 'sext' else (0, 2 ** narrow - 1)
        sign, by, add = self.rng.choice(['+', '-', '*']), self.rng.randrange(1, narrow), self.rng.choice([0, 1, 128])
        is_clamped, is_shifted = self.rng.random() < 0.5, self.rng.random() < 0.6

        def made(i):
            x = f' {sign} '.join(f'{cast}{wide}({load(i)})' for load in loads)
            x = f'{x} + {add}i{wide}' if add else x
            x = f'ashr({x}, {by})' if is_shifted else x
            return f'smin(smax({x}, {low}i{wide}), {high}i{wide})' if is_clamped else x
        for i in range(self.lanes):
            self.put(narrow // 8 * i, f'trunc{narrow}({made(i)})', narrow)

    def shared(self):
        """Each number loaded once, under a name, and used in some rows."""
        width = self.width
        step, pointer = width // 8, self.rng.choice('pq')
        names = [self.name(f'load{width}({pointer} + {step * i})') for i in range(self.lanes + 2)]
        for row in range(self.rng.choice([1, 2, 2])):
            sign, by = self.rng.choice(SIGNS[:9]), self.rng.randrange(3)
            for i in range(self.lanes):
                self.put(step * (row * self.lanes + i), both(sign, names[i], names[i + by]))

    def in_place(self):
        """What is read is written over, in order or against it."""
        step, by, made = self.width // 8, self.rng.choice([0, 0, 1, 2, -1]), self.value(self.width, 1)
        sign = self.rng.choice(SIGNS[:9])
        order = range(self.lanes) if self.rng.random() < 0.7 else reversed(range(self.lanes))
        for i in order:
            self.put(step * i, both(sign, f'load{self.width}(d {signed(step * (i + by))})', made(i)))

    def loose(self):
        """Statements of any width anywhere."""
        for _ in range(self.rng.randrange(1, 9)):
            width, self.used = self.rng.choice([8, 16, 32, 64]), self.rng.randrange(24)
            self.put(self.rng.randrange(-8, 40), self.value(width, self.rng.randrange(3))(0), width)

    # ---- values by lane

    def load(self, width):
        """Loads beside each other, or every second one, of places that no other load of the row reads."""
        pointer, start, step = self.rng.choice('pqpqd'), self.used, width // 8 * self.rng.choice([1, 1, 1, 2])
        self.used += self.lanes * step
        return lambda i: f'load{width}({pointer} + {start + step * i})'

    def literal(self, width):
        number = self.rng.choice([0, 1, 2, 7, 2 ** (width - 1), 2 ** width - 1, self.rng.getrandbits(width)])
        return f'{number}i{width}'

    def leaf(self, width):
        kind = self.rng.random()
        if kind < 0.75:
            return self.load(width)
        if kind < 0.9 or width != self.width:
            return lambda i, text=self.literal(width): text
        return lambda i: 'k'

    def value(self, width, depth):
        """The text of a value by its lane."""
        if depth == 0:
            return self.leaf(width)
        rng = self.rng
        kind = rng.choice(['two', 'two', 'two', 'turned', 'shift', 'choice', 'wider', 'narrower', 'dot'])
        x = self.value(width, depth - 1)
        if kind == 'turned':
            return lambda i, text=self.literal(width): f'({text} - {x(i)})'
        if kind == 'shift':
            name, by = rng.choice(['shl', 'lshr', 'ashr']), rng.randrange(width)
            return lambda i: f'{name}({x(i)}, {by})'
        if kind == 'choice':
            test, y, z = rng.choice(['slt', 'ult', 'eq']), self.value(width, 0), self.value(width, 0)
            return lambda i: f'select({test}({x(i)}, {y(i)}), {z(i)}, {x(i)})'
        if kind == 'wider' and width > 8:
            y, cast = self.value(width // 2, depth - 1), rng.choice(['sext', 'zext'])
            return lambda i: f'({x(i)} + {cast}{width}({y(i)}))'
        if kind == 'narrower' and width < 64:
            y, z, cast, by = self.value(width, 0), self.value(width, 0), rng.choice(['sext', 'zext']), rng.randrange(width)
            return lambda i: f'trunc{width}(lshr({cast}{2 * width}({y(i)}) * {cast}{2 * width}({z(i)}), {by}))'
        if kind == 'dot' and width > 8:
            cast, half = rng.choice(['sext', 'zext']), width // 2
            parts = [(self.load(half), self.load(half)) for _ in range(2)]
            return lambda i: '(' + ' + '.join(f'{cast}{width}({a(i)}) * {cast}{width}({b(i)})' for a, b in parts) + ')'
        y, sign = self.value(width, rng.randrange(depth)), rng.choice(SIGNS)
        return lambda i: both(sign, x(i), y(i))


def both(sign, x, y):
    return f'({x} {sign} {y})' if len(sign) == 1 else f'{sign}({x}, {y})'


def signed(offset):
    return f'+ {offset}' if offset >= 0 else f'- {-offset}'


# ---- instruction files


def entries_of(path):
    """The entries of an instruction file, one text each."""
    with open(path, encoding='latin-1') as file:
        text = re.sub(r'//[^\n]*', '', file.read())
    return [part.strip() + '\n' for part in re.split(r'(?=\bINSTRUCTION\b)', text) if part.strip()]


def made_entry(rng, number):
    """An entry of one expression for each lane."""
    width, register, sign = rng.choice([8, 16, 32, 64]), rng.choice([128, 128, 256]), rng.choice(['SI', 'UI'])
    element, lanes = ELEMENTS[width], register // width
    operands = [f'{p}.{element}[{rng.choice(["j", "j", "j", f"{lanes - 1}-j"])}]' for p in 'ab']
    x, y = operands
    expression = rng.choice([
        f'{x} + {y}', f'{x} - {y}', f'{y} - {x}', f'{x} AND {y}', f'{x} XOR {y}', f'NOT {x} AND {y}', f'MIN({x}, {y})', f'MAX({x}, {y})',
        f'Saturate{width}({x} + {y})', f'SaturateU{width}({x} - {y})', f'({x} + {y} + 1) >> 1', f'({x} * {y}) >> {rng.randrange(width)}',
        f'ABS({x} - {y})', f'{x} > {y} ? {x} : {y}', f'{x} == {y} ? -1 : 0', f'{x} + {y} * 2', f'{x} << {rng.randrange(width)}'])
    params = ' '.join(f'PARAM {p} {register} {sign}{width}' for p in 'ab')
    return (f'INSTRUCTION made_{number} {params} RESULT dst {register} {sign}{width} EXTENSION {rng.choice(["SSE2", "AVX2"])} '
            f'COST {rng.choice([1, 1, 1, 2])} OPERATION\nFOR j := 0 to {lanes - 1}\n dst.{element}[j] := {expression}\nENDFOR\nEND\n')


def random_entries(rng, libraries):
    """Some entries of a library, or all of a small file, and some that are made; and whether all are a library's."""
    known = libraries[rng.choice(sorted(libraries))]
    some = list(known) if rng.random() < 0.05 else rng.sample(known, min(len(known), rng.randrange(1, 60)))
    made = [made_entry(rng, number) for number in range(rng.choice([0, 0, 1, 3, 6]))]
    return some + made, not made
