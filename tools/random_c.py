"""Functions of C that are made at random, for trials of tools/from-c: sums, choices, shifts, clamps, tables, local arrays, short loops."""
import random

TYPES = [f'{sign}int{width}_t' for width in (8, 16, 32, 64) for sign in ('', 'u')]
HEAD = '''#include <stdint.h>
#include <stdlib.h>
#include <string.h>
#define MIN(a, b) ((a) < (b) ? (a) : (b))
#define MAX(a, b) ((a) > (b) ? (a) : (b))
#define CLAMP(x, a, b) ((x) < (a) ? (a) : (x) > (b) ? (b) : (x))
#define ABS(x) ((x) < 0 ? -(x) : (x))
static const int16_t table[16] = {3, -7, 100, 0, 255, -32768, 32767, 1, 2, 5, 11, -1, 64, 4096, -255, 9};
typedef struct { uint8_t a; int16_t b; uint32_t c; int64_t d; } Parts;
'''


class Maker:
    """Makes one function: its name and its text."""

    def __init__(self, seed, number, is_loop):
        self.rng, self.name, self.is_loop = random.Random(f'{seed} c {number}'), f'made{number}', is_loop
        self.variables, self.pointers, self.lines, self.index = [], [], [], None

    def literal(self):
        return str(self.rng.choice([0, 1, 2, 3, 7, 8, 15, 127, 128, 255, -1, -5, 1000, 32767, self.rng.randrange(1 << 16)]))

    def at(self):
        """A place in an array: a constant, or in a loop one that moves."""
        number = self.rng.randrange(8)
        if self.index is None:
            return str(number)
        return self.rng.choice([f'{self.index}', f'{self.index} + {number}', f'{number}']) if not self.is_loop else self.index

    def leaf(self):
        kind = self.rng.random()
        if kind < 0.5 and self.pointers:
            return f'{self.rng.choice(self.pointers)}[{self.at()}]'
        if kind < 0.8 and self.variables:
            return self.rng.choice(self.variables)
        if kind < 0.85:
            return f'table[{self.rng.randrange(16)}]'
        return self.literal()

    def value(self, depth):
        rng = self.rng
        if depth == 0 or rng.random() < 0.1:
            return self.leaf()
        kind, inner = rng.randrange(14), lambda: self.value(depth - 1)
        if kind < 4:
            return f'({inner()} {rng.choice(["+", "-", "*", "+", "-"])} {inner()})'
        if kind == 4:
            return f'({inner()} {rng.choice("&|^")} {inner()})'
        if kind == 5:
            return f'(({rng.choice(TYPES)})({inner()}))'
        if kind == 6:
            of = rng.choice(TYPES)
            width = int(of.strip('uint_'))
            return f'((({of})({inner()})) {rng.choice(["<<", ">>"])} {rng.randrange(width)})'
        if kind == 7:
            return f'({self.condition(depth - 1)} ? {inner()} : {inner()})'
        if kind == 8:
            name = rng.choice(['MIN', 'MAX', 'ABS', 'CLAMP'])
            of, one = rng.choice(['int32_t', 'int64_t', 'int16_t', 'uint32_t']), self.leaf()
            limits = rng.choice([['-128', '127'], ['0', '255']])
            words = [f'({of})({one})', *{'ABS': [], 'CLAMP': limits}.get(name, [f'({of})({self.leaf()})'])]
            return f'{name}({", ".join(words)})'
        if kind == 9:
            return f'(({rng.choice(["int32_t", "uint32_t", "uint64_t", "int64_t"])})({inner()}) {rng.choice("/%")} {1 << rng.randrange(6)})'
        if kind == 10:
            return f'(({self.condition(depth - 1)}) + {inner()})'
        if kind == 11:
            return f'(- {inner()})' if rng.random() < 0.5 else f'(~{inner()})'
        if kind == 12:
            of, k = rng.choice(['uint32_t', 'uint64_t', 'uint16_t']), rng.randrange(1, 15)
            width, one = {'uint32_t': 32, 'uint64_t': 64, 'uint16_t': 16}[of], self.leaf()
            return f'(({of})((({of}){one}) << {k} | (({of}){one}) >> {width - k}))'
        return f'__builtin_bswap{rng.choice([16, 32, 64])}({inner()})' if rng.random() < 0.5 else f'abs((int16_t)({inner()}))'

    def condition(self, depth):
        kind = self.rng.random()
        if depth > 0 and kind < 0.3:
            return f'({self.condition(depth - 1)} {self.rng.choice(["&", "|", "^"])} {self.condition(depth - 1)})'
        if kind < 0.4:
            return f'(!({self.value(max(0, depth - 1))}))'
        sign = self.rng.choice(['<', '>', '<=', '>=', '==', '!='])
        return f'({self.value(max(0, depth - 1))} {sign} {self.value(max(0, depth - 1))})'

    def statement(self, depth=0):
        rng, kind = self.rng, self.rng.randrange(10)
        if kind < 4 or self.is_loop:
            return [f'd[{self.at()}] = {self.value(rng.choice([1, 2, 3]))};']
        if kind < 6:
            name = f't{len(self.variables)}'
            line = f'{rng.choice(TYPES)} {name} = {self.value(2)};'
            if depth == 0:
                self.variables.append(name)
                return [line]
            return [f'd[{self.at()}] += {self.leaf()};']
        if kind == 6 and self.assignable():
            name = rng.choice(self.assignable())
            other = f' else {name} ^= {self.leaf()};' if rng.random() < 0.5 else ''
            return [f'if ({self.condition(1)}) {name} = {self.value(1)};{other}']
        if kind == 7 and depth == 0 and self.index is None:
            self.index = 'i'
            inner = [line for _ in range(rng.choice([1, 2])) for line in self.statement(1)]
            self.index = None
            return [f'for (int i = 0; i < {rng.randrange(1, 7)}; i++) {{', *inner, '}']
        if kind == 8 and depth == 0:
            copy = f'memcpy(d + 1, w, {rng.randrange(1, 16)});' if rng.random() < 0.5 else ''
            return ['{', 'uint16_t w[8];', f'for (int k = 0; k < 8; k++) w[k] = {self.leaf()} + k;',
                    f'd[{rng.randrange(8)}] = w[{rng.randrange(8)}] + w[{rng.randrange(8)}];', copy, '}']
        if kind == 9 and depth == 0:
            return ['{', 'Parts s;', f'memcpy(&s, {rng.choice(self.pointers)}, sizeof s);', f's.b += {self.leaf()};',
                    rng.choice(['memcpy(d, &s, sizeof s);', f'd[{self.at()}] = s.c + s.a + s.b;', 'd[2] = s.d;', 'd[1] = s.a * s.b;']), '}']
        return [f'd[{self.at()}] = {self.value(2)};']

    def assignable(self):
        return [name for name in self.variables if name.startswith('t')]

    def text(self):
        rng = self.rng
        alone = 'restrict ' if rng.random() < 0.4 else ''
        self.pointers = ['d', *[f'p{k}' for k in range(rng.randrange(1, 4))]]
        parameters = [f'{rng.choice(TYPES)} *{alone}d'] + [f'const {rng.choice(TYPES)} *{p}' for p in self.pointers[1:]]
        for k in range(rng.randrange(0, 3)):
            self.variables.append(f'k{k}')
            parameters.insert(rng.randrange(len(parameters) + 1), f'{rng.choice(TYPES)} k{k}')
        body = []
        if self.is_loop:
            count, self.index = rng.choice(['int', 'unsigned', 'size_t', 'int64_t', 'uint64_t', 'long']), 'i'
            parameters.append(f'{count} n')
            body += [f'for ({count} i = 0; i < n; i++) {{', *(line for _ in range(rng.choice([1, 1, 2])) for line in self.statement()), '}']
        else:
            for _ in range(rng.choice([1, 2, 3, 5])):
                body += self.statement()
        result = 'void'
        if not self.is_loop and rng.random() < 0.4:
            result = rng.choice([*TYPES, '_Bool'])
            body.append(f'return {self.value(2)};')
        return f'{result} {self.name}({", ".join(parameters)})\n{{\n' + ''.join(f'    {line}\n' for line in body if line) + '}\n'


def file_of(seed, first, count, is_loop):
    """A C file of that many functions, and their names."""
    makers = [Maker(seed, number, is_loop) for number in range(first, first + count)]
    return HEAD + '\n'.join(maker.text() for maker in makers), [maker.name for maker in makers]
