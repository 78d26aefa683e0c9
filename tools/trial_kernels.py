"""The texts of the kernels of trials, as crates/vg_trial/specs/Trial.antt says them, and of loops and kernels at random."""
import random

WORDS = {'Sums': 4, 'Products': 4, 'Clamped': 8, 'Averages': 16, 'Pairs': 4}


def trial_statement(shape, k, i):
    """A statement of a trial: statement i of its group k."""
    to, at = 16 * k + 4 * i, 32 * k + 4 * i
    if shape == 'Sums':
        return f'store32(d + {to}, load32(p + {at}) + load32(q + {at}));'
    if shape == 'Products':
        return (f'store32(d + {to}, sext32(load16(p + {at})) * sext32(load16(q + {at}))'
                f' + sext32(load16(p + {at + 2})) * sext32(load16(q + {at + 2})));')
    if shape == 'Clamped':
        return f'store16(d + {16 * k + 2 * i}, trunc16(smin(smax(load32(p + {at}), -32768i32), 32767i32)));'
    if shape == 'Averages':
        at = 32 * k + i
        return f'store8(d + {16 * k + i}, trunc8(lshr(zext16(load8(p + {at})) + zext16(load8(q + {at})) + 1i16, 1)));'
    pointer, at = 'pq'[i // 2], 32 * k + 8 * (i % 2)
    return f'store32(d + {to}, load32({pointer} + {at}) + load32({pointer} + {at + 4}));'


def trial_kernel(n):
    lines = []
    for k in range(1 + n % 40):
        shape = list(WORDS)[(n // 40 + k) % 5]
        lines += [trial_statement(shape, k, i) for i in range(WORDS[shape])]
    return 'kernel trial(d: noalias ptr, p: ptr, q: ptr) {\n' + '\n'.join(lines) + '\n}\n'


def random_loop(rng):
    """A loop of one statement on numbers at steps of their own, of pointers that may meet or may not."""
    width, alone, counter = rng.choice([8, 16, 32]), rng.choice(['noalias ', 'noalias ', '']), rng.choice([8, 16, 32, 64])
    size, value = width // 8, f'load{width}(p + 0)'
    steps = {'d': size * rng.choice([1, 1, 1, 2]), 'p': size * rng.choice([1, 1, 1, 2, 3]), 'q': size * rng.choice([0, 1, 1])}
    for _ in range(rng.randrange(3)):
        other = rng.choice([f'load{width}({place})' for place in ('q + 0', f'p + {size}', f'd - {size}')]
                           + ['k', f'{rng.getrandbits(width)}i{width}'])
        sign = rng.choice(['+', '-', '&', '|', '^', 'smin', 'umax', 'smax'])
        value = f'({value} {sign} {other})' if len(sign) == 1 else f'{sign}({value}, {other})'
    moved = ', '.join(f'{pointer} {step}' for pointer, step in steps.items() if step)
    head = f'loop looped(d: {alone}ptr, p: ptr, q: ptr, k: i{width}, n: i{counter}) times n step {moved}'
    return head + f' {{\n  store{width}(d + 0, {value});\n}}\n'


class Mixed:
    """A kernel of one statement at random, for each lane of one or two registers."""

    def __init__(self, seed, number):
        self.rng, self.used = random.Random(f'{seed} mixed {number}'), 0
        self.width = self.rng.choice([8, 16, 32])
        self.lanes = 128 // self.width * self.rng.choice([1, 1, 2])
        made, step = self.value(self.rng.choice([1, 2, 2, 3])), self.width // 8
        lines = [f'store{self.width}(d + {step * i}, {made(i)});' for i in range(self.lanes)]
        self.text = f'kernel mixed(d: noalias ptr, p: ptr, q: ptr, k: i{self.width}) {{\n' + '\n'.join(lines) + '\n}\n'

    def load(self, width):
        """Loads beside each other, of numbers that no other load of the statement reads."""
        pointer, start, step = self.rng.choice('pq'), self.used, width // 8
        self.used += self.lanes * step
        return lambda i: f'load{width}({pointer} + {start + step * i})'

    def value(self, depth):
        """The text of a value by its lane."""
        rng, w = self.rng, self.width
        if depth == 0:
            return self.load(w) if rng.random() < 0.9 else lambda i: 'k'
        x, number = self.value(depth - 1), rng.choice([1, 7, 2**(w - 1), 2**w - 1, rng.getrandbits(w)])
        kind = rng.choice(['two', 'two', 'two', 'turned', 'shift', 'average', 'dot', 'choice', 'wide'])
        if kind == 'turned':
            return lambda i: f'({number}i{w} - {x(i)})'
        if kind == 'shift' and w > 8:
            name, by = rng.choice(['shl', 'lshr', 'ashr']), rng.randrange(1, w)
            return lambda i: f'{name}({x(i)}, {by})'
        if kind == 'dot' and w == 32:
            factors = [(rng.choice('pq'), self.used + 4 * self.lanes * j) for j in range(2)]
            self.used += 8 * self.lanes
            pair = [lambda i, p=p, at=at: [f'sext32(load16({p} + {at + 4 * i + 2 * j}))' for j in range(2)] for p, at in factors]
            return lambda i: '({0} * {2} + {1} * {3})'.format(*pair[0](i), *pair[1](i))
        y = self.value(rng.randrange(depth))
        if kind == 'average' and w < 32:
            return lambda i: f'trunc{w}(lshr(zext{2 * w}({x(i)}) + zext{2 * w}({y(i)}) + 1i{2 * w}, 1))'
        if kind == 'choice':
            test, z = rng.choice(['slt', 'eq']), self.value(0)
            return lambda i: f'select({test}({x(i)}, {y(i)}), {z(i)}, {number}i{w})'
        if kind == 'wide' and w > 8:
            return lambda i, narrow=self.load(w // 2), cast=rng.choice(['sext', 'zext']): f'({x(i)} + {cast}{w}({narrow(i)}))'
        sign = rng.choice(['+', '-', '&', '|', '^', 'smin', 'smax', 'umin', 'umax'] + ['*'] * (w > 8))
        return lambda i: f'({x(i)} {sign} {y(i)})' if len(sign) == 1 else f'{sign}({x(i)}, {y(i)})'
