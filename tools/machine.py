"""Runs a function of machine code on values that are not known, and writes the program that does the same."""
import re

from machine_bytes import STACK, UNDEFINED, Address, Part, Row, Scalar, Unknown, Writer, number_of, parts_of
from machine_code import REGISTERS, Refused, Target
from machine_scalar import NOTHING, Integers, address_of, bytes_of
from machine_vector import Vectors

PASSED = 'rdi rsi rdx rcx r8 r9'.split()
MOST_STEPS, FRAME = 100000, 1 << 20
REASONS = ('branch on data', 'branch on pointers', 'call', 'variable address', 'shuffle by data', 'shift by data', 'undefined bits used',
           'unknown instruction', 'store outside the parameters', 'too many instructions')
ACCESS = re.compile(r'(load|store)(8|16|32|64)\s*\(\s*(\w+)\s*(?:([+-])\s*(\d+))?')


def accesses(text):
    """The accesses in the text of a kernel: (load or store, bytes, pointer, offset, where in the text)."""
    text = re.sub(r'//[^\n]*', lambda found: ' ' * len(found[0]), text)
    for found in ACCESS.finditer(text):
        yield found[1], int(found[2]) // 8, found[3], int((found[4] or '+') + (found[5] or '0')), found.start()


class Stopped(Refused):
    """Machine code that is not taken, with where it stands."""

    def __init__(self, refused, where, text):
        super().__init__(refused.why, refused.what)
        self.where, self.text = where, text

    def __str__(self):
        return f'{self.why}{": " + self.what if self.what else ""}, at {self.where}: {self.text}'


class Machine(Integers, Vectors):
    """A function of an object that is run; `extended` tells of which narrow integers the caller puts what above them: `sext` or `zext`.
    After `run` the writer has the program."""

    def __init__(self, code, function, kernel, library, form='', extended=None):
        self.code, self.function, self.kernel, self.writer = code, function, kernel, Writer(kernel, library, form)
        self.flags, self.stack = None, {}
        self.general = {register.name: parts_of(Unknown('undefined bits used', register.name), 8) for register in REGISTERS.values()}
        self.general['rsp'] = parts_of(Address(STACK, -8), 8)
        self.vectors = [[UNDEFINED] * 32 for _ in range(16)]
        self.widths, self.result = {}, 0
        for kind, size, pointer, offset, _ in accesses(kernel.text):
            if kind == 'load':
                for k in range(size):
                    self.widths.setdefault((pointer, offset + k), set()).add(8 * size)
            elif pointer == 'ret' and kernel.parameters[-1][:2] == ('ret', 'ptr'):
                self.result = size
        self.pass_parameters(extended or {})

    def pass_parameters(self, extended):
        """Puts the parameters where the convention of System V has them."""
        given = self.kernel.parameters[:-1] if self.result else self.kernel.parameters
        for k, (name, kind, _) in enumerate(given):
            refs = parts_of(Address(name, 0), 8) if kind == 'ptr' else self.integer(name, int(kind[1:]), extended.get(name))
            if k < len(PASSED):
                self.general[PASSED[k]] = refs
            else:
                self.stack.update(zip(range(8 * (k - len(PASSED)), 8 * (k - len(PASSED)) + 8), refs))

    def integer(self, name, width, how):
        value = Scalar(name, width)
        if how and width < 32:
            value = self.writer.extended(how, value, 32)
        return parts_of(value, value.width // 8) + [UNDEFINED] * (8 - value.width // 8)

    # Memory

    def load(self, place, size, vector=False):
        """Bytes of memory; with `vector` they are loaded into a vector register where a line does that."""
        address = number_of(place)
        if address is not None:
            return list(self.code.constant(address, size))
        base, offset = self.reached(place)
        if base == STACK:
            return [self.stack.get(offset + k, UNDEFINED) for k in range(size)]
        at = f'{base}{offset:+d}'
        if size < 4 or size <= 8 and not vector:
            return bytes_of(self.writer.scalar(8 * size, f'load {at}', again=False), size)
        widths = set().union(*(self.widths.get((base, offset + k), set()) for k in range(size)))
        row = self.writer.row(256 if size == 32 else 128, f'vload {size} {at}', min(widths or {8}), again=False,
                              zeros=frozenset(range(size, 16)))
        return row.parts()[:size]

    def reached(self, place, storing=False):
        found = address_of(place)
        if found is None:
            unknown = next((ref.of for ref in place if isinstance(ref, Part) and isinstance(ref.of, Unknown)), None)
            raise Refused(*(unknown or ('variable address', '')))
        if abs(found.offset) >= 1 << 31 or found.base == STACK and abs(found.offset) > FRAME:
            raise Refused('store outside the parameters' if storing else 'variable address', 'an offset of more than 31 bits')
        return found

    def store(self, place, refs):
        if number_of(place) is not None:
            raise Refused('store outside the parameters')
        base, offset = self.reached(place, True)
        if base == STACK:
            self.stack.update(zip(range(offset, offset + len(refs)), refs))
            return
        size, at = len(refs), f'{base}{offset:+d}'
        if size >= 4 and any(isinstance(ref, Part) and isinstance(ref.of, Row) for ref in refs) or size > 8:
            row = self.row_to_store(refs)
            self.writer.put(f'vstore {size} {at} {row.name}')
        else:
            self.writer.put(f'store {at} {self.writer.word(self.writer.operand(refs), 8 * size)}')

    def row_to_store(self, refs):
        """A register whose low bytes are these."""
        first = refs[0].of if isinstance(refs[0], Part) else None
        if isinstance(first, Row) and len(refs) < 16 and first.width == 128 and refs == first.parts()[:len(refs)]:
            return first
        return self.writer.register(refs + [0] * (16 - len(refs)))

    # The run

    def run(self):
        """Runs the function; complains with `Stopped` where it cannot be followed."""
        address, ends, steps = self.code.start(self.function), [], 0
        while address is not None:
            text = ''
            try:
                steps += 1
                if steps > MOST_STEPS:
                    raise Refused('too many instructions', f'more than {MOST_STEPS}')
                instruction = self.code.instruction(address)
                text = instruction.text
                after = self.step(instruction, ends)
            except Refused as refused:
                raise Stopped(refused, self.code.address(address), text) from None
            address = after
        return self.writer

    def step(self, i, ends):
        """Runs one instruction, and gives the address of the next."""
        name = i.name
        if name == 'ret':
            if not ends:
                self.give_result()
                return None
            self.move_stack(8)
            return ends.pop()
        if name == 'call':
            target = self.target(i)
            self.move_stack(-8)
            self.store(self.general['rsp'], [UNDEFINED] * 8)
            ends.append(i.after)
            return target
        if name == 'jmp':
            return self.target(i)
        if name.startswith('j'):
            held, _ = self.condition(name[1:])
            if not isinstance(held, bool):
                raise Refused('branch on data')
            return self.target(i) if held else i.after
        self.act(i)
        return i.after

    def target(self, i):
        """Where a jump or a call of the object goes."""
        target = i.operands[0] if i.operands else None
        if not isinstance(target, Target) or target.address not in self.code.instructions:
            named = isinstance(target, Target)
            raise Refused('call' if i.name == 'call' or named else 'branch on data', self.code.callee(i.address, target) if named else '')
        if '@plt' in target.name:
            raise Refused('call', self.code.callee(i.address, target))
        return target.address

    def act(self, i):
        name = i.name
        if name in NOTHING:
            return None
        if i.vector() or name.startswith('v'):
            return self.vector(i)
        act = getattr(self, 'i_' + name, None)
        if act:
            return act(i)
        for start, chosen in (('cmov', self.cmov), ('set', self.set)):
            if name.startswith(start):
                return chosen(i, name[len(start):])
        raise Refused('unknown instruction')

    def give_result(self):
        if self.result:
            self.store(parts_of(Address('ret', 0), 8), self.general['rax'][:self.result])
