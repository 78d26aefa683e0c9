"""What a function's values are while it becomes a kernel: numbers, bits, linear forms, addresses; and arithmetic of numbers."""
import llvm_ir as ir
from kernel_graph import COMPARISONS, Value, literal, signed

MOST_LEAVES = 4
FOLDED = {'add': lambda a, b, w: a + b, 'sub': lambda a, b, w: a - b, 'mul': lambda a, b, w: a * b, 'and': lambda a, b, w: a & b,
          'or': lambda a, b, w: a | b, 'xor': lambda a, b, w: a ^ b, 'umin': lambda a, b, w: min(a, b), 'umax': lambda a, b, w: max(a, b),
          'smin': lambda a, b, w: min(signed(a, w), signed(b, w)), 'smax': lambda a, b, w: max(signed(a, w), signed(b, w)),
          'eq': lambda a, b, w: a == b, 'ult': lambda a, b, w: a < b, 'slt': lambda a, b, w: signed(a, w) < signed(b, w)}


# Bits


class Condition:
    """A bit: a comparison (`value`), or bits put together: `not`, `and`, `or`, `xor`, `choose`. A bit that is known is a `bool`."""
    __slots__ = ('kind', 'parts', 'leaves')

    def __init__(self, kind, *parts):
        self.kind, self.parts = kind, parts
        self.leaves = 1 if kind == 'value' else sum(part.leaves for part in parts)


def negated(bit):
    if isinstance(bit, bool):
        return not bit
    return bit.parts[0] if bit.kind == 'not' else Condition('not', bit)


def both(one, two):
    if isinstance(one, bool) or isinstance(two, bool):
        known, other = (one, two) if isinstance(one, bool) else (two, one)
        return other if known else False
    return Condition('and', one, two)


def either(one, two):
    return negated(both(negated(one), negated(two))) if isinstance(one, bool) or isinstance(two, bool) else Condition('or', one, two)


def differ(one, two):
    if isinstance(one, bool) or isinstance(two, bool):
        known, other = (one, two) if isinstance(one, bool) else (two, one)
        return negated(other) if known else other
    return Condition('xor', one, two)


# Linear forms: a number of each parameter, and a constant


def plus(one, two, times=1):
    """one + times * two, or None."""
    if one is None or two is None:
        return None
    terms = dict(one[0])
    for word, number in two[0].items():
        terms[word] = terms.get(word, 0) + times * number
    return {word: number for word, number in terms.items() if number}, one[1] + times * two[1]


def scaled(form, times):
    return None if form is None else ({word: number * times for word, number in form[0].items() if times}, form[1] * times)


def forms_of(value):
    """What an integer is as a linear form, with a sign and without one; of 64 bits both hold modulo 2^64."""
    if value.op == 'literal':
        number = signed(value.number, value.width)
        return ({}, number), ({}, number if value.width == 64 else value.number)
    return value.forms


# Memory


class Base:
    """What a pointer is made of: a parameter, a global variable, or an array of the function's own."""

    def __init__(self, kind, name, alone=False):
        self.kind, self.name, self.alone, self.bytes = kind, name, alone, {}


class Address:
    """A base, a linear form of bytes, and an offset."""
    __slots__ = ('base', 'terms', 'offset')

    def __init__(self, base, terms, offset):
        self.base, self.terms, self.offset = base, terms, offset

    def moved(self, by):
        return Address(self.base, self.terms, self.offset + by)


class Choice:
    """One address or another, by a bit."""
    __slots__ = ('bit', 'one', 'two')

    def __init__(self, bit, one, two):
        self.bit, self.one, self.two = bit, one, two


def spelled(terms):
    """The text of the terms of a linear form."""
    return ' '.join(('- ' if number < 0 else '+ ') + (f'{abs(number)}*' if abs(number) != 1 else '') + word[0]
                    for word, number in sorted(terms.items()))


class Arithmetic:
    """Operations, folded where their operands are literals; of a class with a `graph` and the `instruction` that is looked at."""

    def put(self, op, width, operands=(), number=0):
        return self.graph.put(Value(op, width, tuple(operands), number, line=self.instruction))

    def two(self, op, one, two):
        """An operation of two numbers, or a comparison."""
        if one.width != two.width:
            raise ir.Malformed(self.instruction.line, f'{op} of {one.width} and {two.width} bits')
        width = one.width
        if one.op == two.op == 'literal':
            made = FOLDED[op](one.number, two.number, width)
            return made if op in COMPARISONS else literal(width, made)
        if one.op == 'literal' and op not in ('sub', 'eq', 'slt', 'ult'):
            one, two = two, one
        if two.op == 'literal' and ((two.number == 0 and op in ('add', 'sub', 'or', 'xor')) or (two.number == 1 and op == 'mul')
                                    or (two.number == (1 << width) - 1 and op == 'and')):
            return one
        if op in ('smax', 'umax') and two.op == 'literal' and self.is_clamp(op[0], one, two):
            return self.two(op[0] + 'min', self.two(op, one.operands[0], two), one.operands[1])
        return self.put(op, 1 if op in COMPARISONS else width, (one, two))

    def is_clamp(self, kind, one, low):
        """Whether a number is kept below a limit that is not below `low`: then the greater may be taken first."""
        if one.op != kind + 'min' or one.operands[1].op != 'literal':
            return False
        high = one.operands[1].number
        return low.number <= high if kind == 'u' else signed(low.number, low.width) <= signed(high, low.width)

    def shift(self, op, value, by):
        if by == 0:
            return value
        if value.op == 'literal':
            number = signed(value.number, value.width) if op == 'ashr' else value.number
            return literal(value.width, number << by if op == 'shl' else number >> by)
        return self.put(op, value.width, (value,), by)

    def cast(self, op, width, value):
        if width == value.width:
            return value
        if value.op == 'literal':
            return literal(width, signed(value.number, value.width) if op == 'sext' else value.number)
        if op == 'trunc' and value.op in ('sext', 'zext'):
            inner = value.operands[0]
            return self.cast('trunc' if width < inner.width else value.op, width, inner)
        made = self.put(op, width, (value,))
        forms = forms_of(value)
        made.forms = {'sext': (forms[0], None), 'zext': (forms[1], forms[1])}.get(op, (None, None))
        if op != 'trunc' and width == 64:
            made.forms = (forms[op == 'zext'],) * 2
        return made

    def compared(self, op, one, two):
        """A comparison as a bit."""
        made = self.two(op, one, two)
        return made if isinstance(made, bool) else Condition('value', made)

    def select(self, bit, one, two):
        """One number or the other, by a bit."""
        if isinstance(bit, bool):
            return one if bit else two
        if one.is_same(two):
            return one
        if bit.leaves > MOST_LEAVES:
            bit = self.narrowed(bit)
        kind, parts = bit.kind, bit.parts
        if kind == 'not':
            return self.select(parts[0], two, one)
        if kind == 'and':
            return self.select(parts[0], self.select(parts[1], one, two), two)
        if kind == 'or':
            return self.select(parts[0], one, self.select(parts[1], one, two))
        if kind == 'xor':
            return self.select(parts[0], self.select(parts[1], two, one), self.select(parts[1], one, two))
        if kind == 'choose':
            return self.select(parts[0], self.select(parts[1], one, two), self.select(parts[2], one, two))
        return self.least_or_greatest(parts[0], one, two) or self.put('select', one.width, (parts[0], one, two))

    def narrowed(self, bit):
        """A bit of many comparisons as one comparison, of a byte."""
        return self.compared('eq', self.byte(bit), literal(8, 1))

    def byte(self, bit):
        """A bit as a number of 8 bits, 0 or 1."""
        if isinstance(bit, bool):
            return literal(8, bit)
        if bit.kind in ('and', 'or', 'xor'):
            return self.two(bit.kind, self.byte(bit.parts[0]), self.byte(bit.parts[1]))
        if bit.kind == 'not':
            return self.two('xor', self.byte(bit.parts[0]), literal(8, 1))
        return self.select(bit, literal(8, 1), literal(8, 0))

    def least_or_greatest(self, test, one, two):
        """`smin` and so on, where a choice by a comparison is one; else None."""
        if test.op not in ('slt', 'ult') or test.operands[0].width != one.width:
            return None
        kind, (low, high), width = test.op[0], test.operands, one.width
        if one.is_same(low) and two.is_same(high):
            return self.two(kind + 'min', low, high)
        if one.is_same(high) and two.is_same(low):
            return self.two(kind + 'max', low, high)
        if kind == 's':
            found = self.absolute(low, high, one, two)
            if found:
                return found
        return self.clamp(kind, width, low, high, one, two) or self.second_clamp(kind, width, low, high, one, two)

    def absolute(self, low, high, one, two):
        """low < high chooses between a number and its negation."""
        def is_negation(value, of):
            return value.op == 'sub' and value.operands[0].op == 'literal' and value.operands[0].number == 0 and value.operands[1] is of

        edges = {0, 1}
        if high.op == 'literal' and high.number in edges:
            if two is low and is_negation(one, low):
                return self.two('smax', low, one)
            if one is low and is_negation(two, low):
                return self.two('smin', low, two)
        if low.op == 'literal' and low.number in (0, (1 << low.width) - 1):
            if one is high and is_negation(two, high):
                return self.two('smax', high, two)
            if two is high and is_negation(one, high):
                return self.two('smin', high, one)
        return None

    def clamp(self, kind, width, low, high, one, two):
        """x < C with C - 1, and C < x with C + 1, which compilers write for x <= C - 1 and so on."""
        def number(value):
            return signed(value.number, width) if kind == 's' else value.number

        if high.op == 'literal':
            edge, x, step = high, low, -1
        elif low.op == 'literal':
            edge, x, step = low, high, 1
        else:
            return None
        other = two if one is x else one if two is x else None
        if other is None or other.op != 'literal' or number(other) != number(edge) + step:
            return None
        is_least = (one is x) == (x is low)
        return self.two(kind + ('min' if is_least else 'max'), x, other)

    def second_clamp(self, kind, width, low, high, one, two):
        """x < C ? C : (the lesser of x and D), and its mirror, where C is at most D: the inner choice may be made first."""
        def number(value):
            return signed(value.number, width) if kind == 's' else value.number

        edge, x, inner = (high, low, 'min') if high.op == 'literal' else (low, high, 'max')
        if edge.op != 'literal' or not one.is_same(edge) or two.op != kind + inner:
            return None
        limit = next((value for value in two.operands if value.op == 'literal'), None)
        if limit is None or not any(value is x for value in two.operands):
            return None
        if number(edge) > number(limit) if inner == 'min' else number(edge) < number(limit):
            return None
        return self.two(kind + ('max' if inner == 'min' else 'min'), two, edge)
