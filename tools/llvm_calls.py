"""Calls that a kernel has a counterpart for: the least and greatest, saturating sums, rotations, copies and fillings."""
import re

import llvm_ir as ir
from kernel_graph import literal

NO_EFFECT = re.compile(r'llvm\.(dbg\.|lifetime\.|assume$|experimental\.noalias|invariant\.|donothing$|prefetch|var\.annotation'
                       r'|annotation|pseudoprobe|sideeffect)')
MOST_COPIED = 4096


class Calls:
    """The calls of a translation."""

    def do_call(self, parts):
        callee = parts['callee']
        if not isinstance(callee, ir.Global):
            self.refuse('call', 'assembler' if callee == ir.Unread('asm') else 'through a pointer')
        name, arguments = callee.name, parts['arguments']
        if self.has_no_effect(name):
            return None
        found = re.fullmatch(r'llvm\.([a-z.]+?)((?:\.(?:[ipv]\d+\w*|p0i8))*)', name)
        if found and found.group(1).startswith('mem') and len(arguments) > 3 and arguments[3][1] == ir.Number(1):
            self.refuse('call', f'a volatile {found.group(1)}')
        made = found and getattr(self, 'call_' + found.group(1).replace('.', '_'), None)
        if name in ('abs', 'labs', 'llabs') and name not in self.module.functions:
            made = self.call_abs
        if not made:
            self.refuse('call', name)
        if len(arguments) < made.__code__.co_argcount - 1:
            raise ir.Malformed(self.instruction.line, f'{name} of {len(arguments)} arguments')
        return made(*arguments[:made.__code__.co_argcount - 1])

    def has_no_effect(self, name):
        return bool(NO_EFFECT.match(name))

    def call_expect(self, value, _):
        return self.value(*value)

    def call_smin(self, one, two):
        return self.two('smin', self.number(*one), self.number(*two))

    def call_smax(self, one, two):
        return self.two('smax', self.number(*one), self.number(*two))

    def call_umin(self, one, two):
        return self.two('umin', self.number(*one), self.number(*two))

    def call_umax(self, one, two):
        return self.two('umax', self.number(*one), self.number(*two))

    def call_abs(self, value):
        value = self.number(*value)
        return self.two('smax', value, self.two('sub', literal(value.width, 0), value))

    def call_usub_sat(self, one, two):
        one, two = self.number(*one), self.number(*two)
        return self.two('sub', self.two('umax', one, two), two)

    def call_uadd_sat(self, one, two):
        one, two = self.number(*one), self.number(*two)
        return self.two('add', one, self.two('umin', two, self.two('xor', one, literal(one.width, -1))))

    def call_ssub_sat(self, one, two):
        return self.saturated('sub', self.number(*one), self.number(*two))

    def call_sadd_sat(self, one, two):
        return self.saturated('add', self.number(*one), self.number(*two))

    def saturated(self, op, one, two):
        width = one.width
        if width == 64:
            self.refuse('width', 'a sum of 64 bits that saturates with a sign')
        made = self.two(op, self.cast('sext', 2 * width, one), self.cast('sext', 2 * width, two))
        made = self.two('smax', made, literal(2 * width, -(1 << width - 1)))
        return self.cast('trunc', width, self.two('smin', made, literal(2 * width, (1 << width - 1) - 1)))

    def call_fshl(self, one, two, by):
        return self.funnel(self.number(*one), self.number(*two), self.number(*by), False)

    def call_fshr(self, one, two, by):
        return self.funnel(self.number(*one), self.number(*two), self.number(*by), True)

    def funnel(self, one, two, by, is_right):
        if by.op != 'literal':
            self.refuse('shift by data', 'a shift of two numbers')
        width = one.width
        places = by.number % width
        if places == 0:
            return two if is_right else one
        places = width - places if is_right else places
        return self.two('or', self.shift('shl', one, places), self.shift('lshr', two, width - places))

    def call_bswap(self, value):
        value, made = self.number(*value), None
        last = value.width // 8 - 1
        for k in range(last + 1):
            moved = self.shift('lshr', value, 8 * (k - (last - k))) if k > last - k else self.shift('shl', value, 8 * (last - 2 * k))
            mask = 255 << 8 * (last - k)
            piece = moved if k in (0, last) else self.two('and', moved, literal(value.width, mask))
            made = piece if made is None else self.two('or', made, piece)
        return made

    def call_memset(self, place, value, count):
        value, count, place = self.number(*value), self.count(count), self.pointer(*place)
        for at, size in pieces(count):
            wide = self.two('mul', self.cast('zext', 8 * size, value), literal(8 * size, int('01' * size, 16)))
            self.store(place.moved(at), wide)

    call_memset_inline = call_memset

    def call_memcpy(self, to, source, count):
        count, to, source = self.count(count), self.pointer(*to), self.pointer(*source)
        if to.base.kind == 'local' and source.base.kind == 'local':
            return self.copy_local(to, source, count)
        read = [(at, self.load(source.moved(at), 8 * size)) for at, size in pieces(count)]
        for at, value in read:
            self.store(to.moved(at), value)

    call_memcpy_inline = call_memmove = call_memcpy

    def copy_local(self, to, source, count):
        """A copy between two arrays of the function, of which not all need be written."""
        if to.terms or source.terms:
            self.refuse('local array', 'a copy at a place that is not constant')
        read = [source.base.bytes.get(source.offset + k) for k in range(count)]
        for k, byte in enumerate(read):
            to.base.bytes.pop(to.offset + k, None)
            if byte:
                to.base.bytes[to.offset + k] = byte

    def count(self, count):
        count = self.number(*count)
        if count.op != 'literal':
            self.refuse('call', 'a copy of a length that is data')
        if count.number > 8 * MOST_COPIED:
            self.refuse('too many', f'a copy of {count.number} bytes')
        return count.number


def pieces(count):
    """A number of bytes as pieces of 8, 4, 2 and 1: (place, size)."""
    at = 0
    while at < count:
        size = next(size for size in (8, 4, 2, 1) if at + size <= count)
        yield at, size
        at += size
