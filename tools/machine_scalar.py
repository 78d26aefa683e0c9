"""What integer instructions do to the state of a machine: numbers of the program, and addresses."""
import collections

from machine_bytes import STACK, Address, Part, Unknown, numbered, number_of, parts_of, signed, whole
from machine_code import Memory, Number, Refused, Register, REGISTERS

Flags = collections.namedtuple('Flags', 'kind a b result width')
ALIKE = {'z': 'e', 'nz': 'ne', 'nae': 'b', 'c': 'b', 'nb': 'ae', 'nc': 'ae', 'na': 'be', 'nbe': 'a', 'nge': 'l', 'nl': 'ge', 'ng': 'le',
         'nle': 'g'}
OPPOSITE = {'ne': 'e', 'ge': 'l', 'le': 'g', 'ae': 'b', 'be': 'a', 'ns': 's'}
CONDITIONS = 'e ne l ge g le b ae a be s ns'.split()
NOTHING = ('nop', 'endbr64', 'vzeroupper', 'vzeroall', 'prefetcht0', 'prefetcht1', 'prefetcht2', 'prefetchnta', 'prefetchw')


def bytes_of(value, size):
    """The bytes of a number or a scalar, with zeros above."""
    if isinstance(value, int):
        return numbered(value, size)
    return (parts_of(value, value.width // 8) + [0] * size)[:size]


def address_of(refs):
    """The address that bytes are, or None."""
    found = whole(refs) if len(refs) == 8 else None
    return found if isinstance(found, Address) else None


class Integers:
    """The integer part of a machine: `writer`, `general` registers by name, `stack` by offset, and `flags`."""

    # Operands

    def get(self, operand, size=None):
        """The bytes of an operand."""
        if isinstance(operand, Register):
            return self.general[operand.name][operand.at:operand.at + operand.size]
        if isinstance(operand, Number):
            return numbered(operand.value % (1 << 8 * size), size)
        if isinstance(operand, Memory) and operand.size:
            return self.load(self.place(operand), operand.size)
        raise Refused('unknown instruction')

    def put(self, operand, refs):
        if isinstance(operand, Memory):
            return self.store(self.place(operand), refs)
        kept = self.general[operand.name]
        if operand.size == 4:
            refs = refs + [0] * 4
        self.general[operand.name] = kept[:operand.at] + refs + kept[operand.at + len(refs):]

    def place(self, memory):
        """The bytes of an address, 8 of them."""
        return self.sum_of(memory, 8)

    def sum_of(self, memory, size):
        total = numbered(memory.offset % (1 << 8 * size), size)
        if memory.base:
            total = self.computed('add', self.low(memory.base, size), total)
        if memory.index:
            index = self.low(memory.index, size)
            if memory.scale > 1:
                index = self.computed('mul', index, numbered(memory.scale, size))
            total = self.computed('add', total, index)
        return total

    def low(self, name, size):
        register = REGISTERS[name]
        if register.size != 8:
            raise Refused('unknown instruction', 'an address of 32 bits')
        return self.general[register.name][:size]

    # Arithmetic

    def computed(self, name, a, b):
        """What an operation gives, of bytes and as bytes."""
        x, y = address_of(a), address_of(b)
        if x or y:
            return self.of_addresses(name, x, y, a, b)
        width, size = 8 * len(a), len(a)
        if any(isinstance(ref, Part) and isinstance(ref.of, Unknown) for ref in a + b) and size == 8:
            known = next(ref.of for ref in a + b if isinstance(ref, Part) and isinstance(ref.of, Unknown))
            return [Part(known, 0)] * size
        one, two = self.writer.operand(a), self.writer.operand(b)
        if name == 'mul' and isinstance(two, int) and two & two - 1 == 0 and two:
            return bytes_of(self.writer.shift('shl', one, two.bit_length() - 1, width), size)
        return bytes_of(self.writer.binary(name, one, two, width), size)

    @staticmethod
    def of_addresses(name, x, y, a, b):
        """Arithmetic of addresses: sums with numbers, differences; what else is not known."""
        number = number_of(b) if x else number_of(a)
        if name == 'add' and number is not None:
            base, offset = x or y
            return parts_of(Address(base, offset + signed(number, 64)), 8)
        if name == 'sub' and x and number is not None:
            return parts_of(Address(x.base, x.offset - signed(number, 64)), 8)
        if name == 'sub' and x and y and x.base == y.base:
            return numbered((x.offset - y.offset) % 2**64, 8)
        if name == 'and' and x and x.base == STACK and number is not None:
            return parts_of(Address(STACK, x.offset & signed(number, 64)), 8)
        why = 'variable address' if name in ('add', 'mul') and not (x and y) or name == 'sub' and not y else 'branch on pointers'
        return [Part(Unknown(why, 'arithmetic of a pointer'), 0)] * 8

    def two(self, instruction, name):
        """`add` and the like: the operands, the result and the flags."""
        target, source = instruction.operands
        size = target.size
        if target == source and name in ('xor', 'sub') and isinstance(target, Register):
            zero = numbered(0, size)
            self.flags = Flags('logic', zero, zero, zero, 8 * size)
            return zero
        a, b = self.get(target), self.get(source, size)
        if isinstance(source, Register) and len(b) != size:
            raise Refused('unknown instruction')
        if name in ('or', 'add') and size > 1 and all(0 in pair for pair in zip(a, b)):
            made = [x if y == 0 else y for x, y in zip(a, b)]
        else:
            made = a if a == b and name in ('and', 'or') else self.computed(name, a, b)
        self.flags = Flags({'add': 'add', 'sub': 'sub'}.get(name, 'logic'), a, b, made, 8 * size)
        return made

    def i_add(self, i):
        self.put(i.operands[0], self.two(i, i.name))

    i_sub = i_and = i_or = i_xor = i_add

    def i_cmp(self, i):
        a, b = self.get(i.operands[0]), self.get(i.operands[1], i.operands[0].size)
        self.flags = Flags('sub', a, b, None, 8 * len(a))

    def i_test(self, i):
        a, b = self.get(i.operands[0]), self.get(i.operands[1], i.operands[0].size)
        self.flags = Flags('logic', a, b, a if a == b else self.computed('and', a, b), 8 * len(a))

    def i_inc(self, i):
        a = self.get(i.operands[0])
        made = self.computed('add' if i.name == 'inc' else 'sub', a, numbered(1, len(a)))
        self.flags = Flags('result', a, None, made, 8 * len(a))
        self.put(i.operands[0], made)

    i_dec = i_inc

    def i_neg(self, i):
        a = self.get(i.operands[0])
        zero = numbered(0, len(a))
        made = self.computed('sub', zero, a)
        self.flags = Flags('sub', zero, a, made, 8 * len(a))
        self.put(i.operands[0], made)

    def i_not(self, i):
        a = self.get(i.operands[0])
        self.put(i.operands[0], self.computed('xor', a, [255] * len(a)))

    def i_imul(self, i):
        if len(i.operands) == 1:
            return self.wide(i, 'sext')
        a, b = self.get(i.operands[-2]), self.get(i.operands[-1], i.operands[0].size)
        self.flags = None
        self.put(i.operands[0], self.computed('mul', a, b))

    def i_mul(self, i):
        self.wide(i, 'zext')

    def wide(self, i, how):
        """A product with twice the bits, in two registers."""
        size = i.operands[0].size
        if size not in (2, 4):
            raise Refused('unknown instruction')
        a, b = (self.longer(how, refs, 2 * size) for refs in (self.general['rax'][:size], self.get(i.operands[0])))
        made = self.computed('mul', a, b)
        word = {2: ('ax', 'dx'), 4: ('eax', 'edx')}[size]
        self.flags = None
        self.put(REGISTERS[word[0]], made[:size])
        self.put(REGISTERS[word[1]], made[size:])

    def longer(self, how, refs, size):
        """Bytes with a sign or zeros above."""
        if how == 'zext':
            return refs + [0] * (size - len(refs))
        value = self.writer.operand(refs)
        if isinstance(value, int):
            return numbered(signed(value, 8 * len(refs)) % (1 << 8 * size), size)
        return bytes_of(self.writer.extended('sext', value, 8 * size), size)

    def i_shl(self, i):
        target, size = i.operands[0], i.operands[0].size
        count = number_of(self.get(i.operands[1], 1)) if len(i.operands) > 1 else 1
        if count is None:
            raise Refused('shift by data')
        count &= 63 if size == 8 else 31
        name = {'shl': 'shl', 'sal': 'shl', 'shr': 'lshr', 'sar': 'ashr'}[i.name]
        refs, many = self.get(target), count // 8
        if name == 'shl' and count % 8 == 0 and count and refs[size - many:] == [0] * min(many, size):
            self.flags = None
            return self.put(target, [0] * many + refs[:size - many])
        made = bytes_of(self.writer.shift(name, self.writer.operand(self.get(target)), count, 8 * size), size)
        if count:
            self.flags = Flags('result', None, None, made, 8 * size)
        self.put(target, made)

    i_sal = i_shr = i_sar = i_shl

    def i_rol(self, i):
        target, size = i.operands[0], i.operands[0].size
        count = number_of(self.get(i.operands[1], 1)) if len(i.operands) > 1 else 1
        if count is None:
            raise Refused('shift by data')
        count = (count if i.name == 'rol' else -count) % (8 * size)
        self.flags = None
        self.put(target, self.turned(self.get(target), self.get(target), count))

    i_ror = i_rol

    def turned(self, high, low, count):
        """The upper bits of two numbers beside each other that are moved up."""
        width = 8 * len(high)
        if count == 0:
            return high
        if count % 8 == 0:
            return low[-count // 8:] + high[:-count // 8] if count // 8 else high
        a, b = self.writer.operand(high), self.writer.operand(low)
        up, down = self.writer.shift('shl', a, count, width), self.writer.shift('lshr', b, width - count, width)
        return bytes_of(self.writer.binary('or', up, down, width), len(high))

    def i_shld(self, i):
        target, source, size = i.operands[0], i.operands[1], i.operands[0].size
        count = number_of(self.get(i.operands[2], 1))
        if count is None:
            raise Refused('shift by data')
        count &= 63 if size == 8 else 31
        a, b = self.get(target), self.get(source)
        self.flags = None
        self.put(target, self.turned(a, b, count) if i.name == 'shld' else self.turned(b, a, 8 * size - count) if count else a)

    i_shrd = i_shld

    def i_bswap(self, i):
        self.put(i.operands[0], self.get(i.operands[0])[::-1])

    # Moves

    def i_mov(self, i):
        self.put(i.operands[0], self.get(i.operands[1], i.operands[0].size))

    i_movabs = i_movnti = i_mov

    def i_movzx(self, i):
        self.put(i.operands[0], self.longer('zext' if i.name == 'movzx' else 'sext', self.get(i.operands[1]), i.operands[0].size))

    i_movsx = i_movsxd = i_movzx

    def i_cdqe(self, i):
        target, source = {'cdqe': ('rax', 'eax'), 'cwde': ('eax', 'ax'), 'cbw': ('ax', 'al')}[i.name]
        self.put(REGISTERS[target], self.longer('sext', self.get(REGISTERS[source]), REGISTERS[target].size))

    i_cwde = i_cbw = i_cdqe

    def i_cdq(self, i):
        target, source = {'cdq': ('edx', 'eax'), 'cqo': ('rdx', 'rax')}[i.name]
        size = REGISTERS[source].size
        value = self.writer.operand(self.get(REGISTERS[source]))
        self.put(REGISTERS[target], bytes_of(self.writer.shift('ashr', value, 8 * size - 1, 8 * size), size))

    i_cqo = i_cdq

    def i_lea(self, i):
        self.put(i.operands[0], self.sum_of(i.operands[1], i.operands[0].size))

    def i_xchg(self, i):
        a, b = i.operands
        if not isinstance(a, Register) or not isinstance(b, Register):
            raise Refused('unknown instruction')
        x, y = self.get(a), self.get(b)
        if a != b:
            self.put(a, y)
            self.put(b, x)

    def i_push(self, i):
        refs = self.get(i.operands[0], 8)
        self.move_stack(-8)
        self.store(self.general['rsp'], refs)

    def i_pop(self, i):
        refs = self.load(self.general['rsp'], 8)
        self.move_stack(8)
        self.put(i.operands[0], refs)

    def i_leave(self, i):
        self.general['rsp'] = self.general['rbp']
        self.general['rbp'] = self.load(self.general['rsp'], 8)
        self.move_stack(8)

    def move_stack(self, many):
        self.general['rsp'] = self.computed('add', self.general['rsp'], numbered(many % 2**64, 8))

    # Conditions

    def condition(self, word):
        """Whether a condition holds: a Boolean, or a scalar of one bit and whether its opposite is meant."""
        word = ALIKE.get(word, word)
        if word not in CONDITIONS:
            raise Refused('unknown instruction')
        base, opposite = OPPOSITE.get(word, word), word in OPPOSITE
        if self.flags is None:
            raise Refused('undefined bits used', 'flags')
        held = self.holds(base, self.flags)
        return (held != opposite, False) if isinstance(held, bool) else (held, opposite)

    def holds(self, base, flags):
        a, b, width = flags.a, flags.b, flags.width
        if flags.kind == 'sub' and (address_of(a) or address_of(b)):
            return self.addresses_compare(base, address_of(a), address_of(b))
        if any(isinstance(ref, Part) and isinstance(ref.of, (Address, Unknown)) for ref in flags.result or []):
            raise Refused('branch on pointers')
        compare, operand = self.writer.compare, self.writer.operand
        if base == 's' or base == 'e' and flags.kind != 'sub':
            result = flags.result or self.computed('sub', a, b)
            return compare('slt' if base == 's' else 'eq', operand(result), 0, width)
        if flags.kind == 'sub':
            name = {'e': 'eq', 'l': 'slt', 'g': 'slt', 'b': 'ult', 'a': 'ult'}[base]
            x, y = (b, a) if base in 'ga' else (a, b)
            return compare(name, operand(x), operand(y), width)
        if flags.kind == 'logic':
            if base == 'b':
                return False
            if base == 'a':
                found = compare('eq', operand(flags.result), 0, width)
                return not found if isinstance(found, bool) else compare('ult', 0, operand(flags.result), width)
            return compare('slt', *((operand(flags.result), 0) if base == 'l' else (0, operand(flags.result))), width)
        if flags.kind == 'add' and base == 'b':
            return compare('ult', operand(flags.result), operand(a), width)
        raise Refused('unknown instruction', 'a flag of arithmetic')

    @staticmethod
    def addresses_compare(base, x, y):
        if not x or not y or x.base != y.base or base == 's':
            raise Refused('branch on pointers')
        return {'e': x.offset == y.offset, 'l': x.offset < y.offset, 'b': x.offset < y.offset, 'g': x.offset > y.offset,
                'a': x.offset > y.offset}[base]

    def chosen(self, word, a, b):
        """The bytes a where a condition holds, else b."""
        held, opposite = self.condition(word)
        if isinstance(held, bool):
            return a if held else b
        if opposite:
            a, b = b, a
        return bytes_of(self.writer.choose(held, self.writer.operand(a), self.writer.operand(b), 8 * len(a)), len(a))

    def cmov(self, i, word):
        target, source = i.operands
        self.put(target, self.chosen(word, self.get(source), self.get(target)))

    def set(self, i, word):
        self.put(i.operands[0], self.chosen(word, [1], [0]))

    def i_sbb(self, i):
        if i.operands[0] != i.operands[1]:
            raise Refused('unknown instruction')
        size = i.operands[0].size
        made = self.chosen('b', [255] * size, [0] * size)
        self.flags = None
        self.put(i.operands[0], made)
