"""A counted loop of one block in LLVM's IR as a loop kernel.

What stands before the loop leads to one block that leads back to itself, over a test that there is a turn at all. Its pointers move by
a constant each turn, its count is a parameter of the function, and nothing else is carried from turn to turn. The count of a loop kernel
is read without a sign.
"""
import llvm_ir as ir
from kernel_graph import Store, Value, may_meet, signed
from llvm_kernel import Translation
from llvm_values import Address, forms_of, plus, spelled

TURN = ('turn', '')
LONGEST_STEP, LONGEST_CHAIN = 65536, 1000
HARMLESS = {'bitcast', 'getelementptr', 'phi', 'trunc', 'zext', 'sext', 'add', 'sub'}


class Counter:
    """An integer that moves by a constant each turn: its value in a turn, the name of the next one, where it begins, and its step."""

    def __init__(self, value, following, start, step):
        self.value, self.following, self.start, self.step = value, following, start, step


class LoopTranslation(Translation):
    """A function that is one counted loop, as the graph of a turn."""

    def __init__(self, *words, **more):
        super().__init__(*words, **more)
        self.counted_by, self.guard, self.counters, self.written = None, None, [], {}

    def run(self):
        turn = self.turn_label()
        before = self.lead(turn)
        if self.graph.stores:
            self.refuse('carried value', 'a store before the loop')
        early = list(self.graph.items)
        self.written = {address.base: set(address.base.bytes) for address in self.known.values() if isinstance(address, Address)}
        last = self.turn(turn, before)
        self.leave(last, turn)
        self.check_early(early)
        return self

    # Before the loop

    def turn_label(self):
        """The block that leads back to itself."""
        found = [label for label, block in self.function.blocks.items()
                 if block and block[-1].op == 'br' and block[-1].parts['condition'] and label in block[-1].parts['to']]
        if len(found) != 1:
            self.refuse('branch', f'{len(found)} loops of one block' if found else 'no loop of one block')
        return found[0]

    def lead(self, turn):
        """Runs what stands before the loop, and gives the block before it."""
        label, before, seen = next(iter(self.function.blocks)), None, set()
        while label != turn:
            if label in seen:
                self.refuse('branch', 'a loop of more than one block')
            seen.add(label)
            label, before = self.lead_block(label, before, turn), label
        return before

    def lead_block(self, label, before, turn):
        for at in self.block_of(label):
            self.instruction = at
            if at.op == 'br':
                return self.lead_branch(at.parts, turn)
            if at.op == 'ret':
                self.refuse('branch', 'the loop is never met')
            if at.op == 'phi':
                self.phi(at, before)
            else:
                self.step(at)
        raise ir.Malformed(self.function.line, f'the block {label!r} has no end')

    def lead_branch(self, parts, turn):
        """The block that comes next; of the test whether there is a turn the side of the loop."""
        if parts['condition'] is None:
            return parts['to'][0]
        bit = self.bit(*parts['condition'])
        if isinstance(bit, bool):
            return parts['to'][0 if bit else 1]
        ways = [self.leads(to, turn) for to in parts['to']]
        if ways[0] == ways[1] or self.guard:
            self.refuse('branch', 'on data, before the loop')
        self.check_end(parts['to'][ways[0]], 'beside the loop')
        self.guard = self.guarded(bit, ways[0])
        return parts['to'][ways[1]]

    def leads(self, label, turn):
        """Whether a block leads to the loop by branches without a condition."""
        for _ in self.function.blocks:
            if label == turn:
                return True
            last = self.block_of(label)[-1:]
            if not last or last[0].op != 'br' or last[0].parts['condition']:
                return False
            label = last[0].parts['to'][0]
        return False

    def guarded(self, bit, is_true):
        """The parameter of which a test says that it is above 0, and whether with a sign."""
        bit, is_true = stripped(bit, is_true)
        test = bit.parts[0] if bit.kind == 'value' else None
        if test:
            one, two = test.operands
            for op, low, high, needs in (('slt', 0, None, True), ('ult', 0, None, True), ('slt', None, 1, False), ('ult', None, 1, False),
                                         ('eq', None, 0, False), ('eq', 0, None, False)):
                number, given = (low, one) if high is None else (high, two)
                if test.op == op and given.op == 'literal' and given.number == number and is_true == needs:
                    name, cast = origin(two if high is None else one)
                    return name, op == 'slt' and cast != 'zext'
        self.refuse('branch', 'on data, before the loop')

    # The loop

    def turn(self, label, before):
        """Runs one turn, and gives the branch at its end."""
        block = self.block_of(label)
        for at in block[:-1]:
            self.instruction = at
            if at.op == 'phi':
                self.carried(at, label, before, block)
            elif at.op == 'br' or at.op == 'ret':
                raise ir.Malformed(at.line, 'a block goes on after its end')
            else:
                self.step(at)
        self.instruction = block[-1]
        self.counted_by = self.counted(block[-1].parts, label)
        return block[-1].parts

    def carried(self, at, label, before, block):
        """A pointer or an integer that moves on by a constant."""
        ways = {way: value for value, way in at.parts['ways']}
        if set(ways) != {label, before} or not isinstance(ways[label], ir.Local):
            self.refuse('carried value', f'%{at.name}')
        of, following = at.parts['type'], ways[label].name
        step, flags = self.advance(at.name, following, {i.name: i for i in block if i.name is not None})
        if isinstance(of, ir.Pointer):
            start = self.pointer(of, ways[before])
            self.known[at.name] = Address(start.base, plus((start.terms, 0), ({TURN: step}, 0))[0], start.offset)
            return
        start = self.number(of, ways[before])
        value = Value('turn', start.width, line=at)
        is_plain = start.op == 'literal' and start.number == 0 and step == 1 and self.is_compared(following, block)
        if is_plain:
            flags = flags | {'nuw'} | ({'nsw'} if self.guard and self.guard[1] else set())
        value.forms = tuple(plus(form, ({TURN: step}, 0)) if start.width == 64 or flag in flags else None
                            for form, flag in zip(forms_of(start), ('nsw', 'nuw')))
        self.known[at.name] = value
        self.counters.append(Counter(value, following, start, step))

    def is_compared(self, name, block):
        """Whether the test at the end of the loop compares a value: then no turn comes at which that has wrapped."""
        _, test = block[-1].parts['condition']
        found = [at for at in block if at.op == 'icmp' and isinstance(test, ir.Local) and at.name == test.name]
        return bool(found) and ir.Local(name) in (found[0].parts['first'], found[0].parts['second'])

    def advance(self, name, following, made):
        """By how much a value moves until its next one, and the flags that all steps on the way have."""
        moved, flags, at = 0, {'nsw', 'nuw'}, following
        for _ in range(LONGEST_CHAIN):
            if at == name:
                return moved, flags
            found = made.get(at)
            by = found and self.step_of(found)
            if by is None:
                break
            at, moved, flags = by[0], moved + by[1], flags & found.flags
        self.refuse('carried value', f'%{name}')

    def step_of(self, at):
        """The value that an instruction adds a constant to, and the constant; else None."""
        parts = at.parts
        if at.op in ('add', 'sub') and isinstance(parts['first'], ir.Local) and isinstance(parts['second'], ir.Number):
            return parts['first'].name, parts['second'].value * (1 if at.op == 'add' else -1)
        if at.op == 'bitcast' and isinstance(parts['value'], ir.Local):
            return parts['value'].name, 0
        if at.op == 'getelementptr' and isinstance(parts['operands'][0][1], ir.Local) \
                and all(isinstance(index, ir.Number) for _, index in parts['operands'][1:]):
            base = parts['operands'][0][1].name
            known = self.known.get(base)
            self.known[base] = Address(None, {}, 0)
            moved = self.walk(parts['over'], parts['operands']).offset
            if known is None:
                del self.known[base]
            else:
                self.known[base] = known
            return base, moved
        return None

    def counted(self, parts, label):
        """The parameter that says how many turns there are."""
        bit = self.bit(*parts['condition'])
        if isinstance(bit, bool):
            self.refuse('branch', 'a loop without a count')
        bit, stays = stripped(bit, parts['to'][0] == label)
        test = bit.parts[0] if bit.kind == 'value' else None
        for counter in self.counters if test else ():
            found = self.count_up(counter, test, stays) or self.count_down(counter, test, stays)
            if found:
                return self.guarded_count(*found)
        self.refuse('branch', 'a loop whose end is no count from 0 up to a parameter, or from one down to 0')

    def count_up(self, counter, test, stays):
        """A counter from 0 by 1: the bound, and whether it is compared with a sign."""
        following = self.known.get(counter.following)
        if counter.step != 1 or counter.start.op != 'literal' or counter.start.number:
            return None
        if test.op == 'eq' and not stays and following in test.operands:
            return test.operands[test.operands[0] is following], False
        if test.op in ('slt', 'ult') and stays and test.operands[0] is following:
            return test.operands[1], test.op == 'slt'
        return None

    def count_down(self, counter, test, stays):
        """A counter from a parameter, or from a number more, by -1: the parameter where it says how many turns there are."""
        bound, more = counter.start, 0
        if bound.op == 'add' and bound.operands[1].op == 'literal':
            bound, more = bound.operands[0], signed(bound.operands[1].number, bound.width)
        if counter.step != -1 or (test.op != 'eq' and more not in (0, -1)):
            return None
        for value, edge in ((self.known.get(counter.following), more), (counter.value, more + 1)):
            if ends_at(test, stays, value, edge):
                return bound, test.op == 'slt'
        return None

    def guarded_count(self, bound, has_sign):
        """The name of the count, where the test before the loop is one of it."""
        name, cast = origin(bound)
        if name is None:
            self.refuse('branch', 'a loop whose count is no parameter')
        if self.guard is None or self.guard[0] != name:
            self.refuse('branch', f'a loop that turns once where {name} is 0')
        if not self.guard[1] and (has_sign or cast == 'sext'):
            self.refuse('branch', f'a loop that turns once where {name} is below 0')
        return name

    # After the loop

    def leave(self, parts, turn):
        self.check_end(parts['to'][parts['to'][0] == turn], 'after the loop')

    def check_end(self, label, where):
        """Nothing but a `ret` may come."""
        for _ in range(len(self.function.blocks) + 1):
            for at in self.block_of(label):
                self.instruction = at
                if at.op == 'ret' and at.parts['value'] is None:
                    return
                if at.op == 'ret':
                    self.refuse('carried value', 'a result after a loop')
                if at.op == 'br':
                    break
                is_call = at.op == 'call' and isinstance(at.parts['callee'], ir.Global) and self.has_no_effect(at.parts['callee'].name)
                if at.op not in HARMLESS and not is_call:
                    self.refuse('branch', f'{at.op} {where}')
            else:
                raise ir.Malformed(self.function.line, f'the block {label!r} has no end')
            if at.parts['condition']:
                self.refuse('branch', f'on data, {where}')
            label = at.parts['to'][0]
        self.refuse('branch', f'a loop whose turns are not written out, {where}')

    def check_early(self, early):
        """What is read before the loop is read anew in each turn, so that no turn may write it."""
        stores = [item for item in self.graph.items if isinstance(item, Store)]
        self.parameters()
        for load in early:
            if load.op == 'load' and any(may_meet(load, store) for store in stores):
                self.instruction = load.line
                self.refuse('carried value', 'a number that is read before the loop, which may write it')
        if not any(store.pointer.step for store in stores):
            self.instruction = None
            self.refuse('carried value', 'no store moves on from turn to turn')

    # Memory

    def spot_of(self, base, terms):
        rest = {word: number for word, number in terms.items() if word != TURN}
        step = terms.get(TURN, 0)
        if rest and not self.rows:
            self.refuse('variable index', f'{base.name} {spelled(rest)}')
        if not 0 <= step <= LONGEST_STEP:
            self.refuse('variable index', f'{base.name} moves by {step} bytes a turn')
        others = {key[2] for key in self.spots if key[0] is base}
        if others - {step} and not self.rows:
            self.refuse('variable index', f'{base.name} moves by {step} bytes a turn and by {min(others - {step})} (--rows)')
        return self.row(base, rest, step)

    def store(self, address, value):
        if address.base.kind == 'local' and not address.terms:
            self.check_written(address, value.width // 8)
        super().store(address, value)

    def copy_local(self, to, source, count):
        self.check_written(to, count)
        super().copy_local(to, source, count)

    def check_written(self, address, size):
        if any(address.offset + k in self.written.get(address.base, ()) for k in range(size)):
            self.refuse('carried value', f'%{address.base.name}, which is written before the loop and in it')

    # The whole

    def check_turns(self):
        for value, _ in self.graph.live().items():
            if any(operand.op == 'turn' for operand in value.operands):
                self.instruction = value.line
                self.refuse('carried value', 'the number of the turn as data')
        for item in self.graph.items:
            if isinstance(item, Store) and item.value.op == 'turn':
                self.instruction = item.value.line
                self.refuse('carried value', 'the number of the turn as data')

    def is_wanted(self, name):
        return not self.rows or name == self.counted_by

    def times(self):
        return self.counted_by

    def notes(self):
        signed = [f'{self.counted_by} is read without a sign; of one below 0 the function makes no turn'] if self.guard[1] else []
        return super().notes() + signed


def stripped(bit, is_true):
    """A bit without its negations, and what it has to be."""
    while bit.kind == 'not':
        bit, is_true = bit.parts[0], not is_true
    return bit, is_true


def origin(value):
    """The parameter that a value is, or is at more bits, and the cast; else None."""
    if value.op == 'parameter':
        return value.pointer.name, None
    if value.op in ('zext', 'sext') and value.operands[0].op == 'parameter':
        return value.operands[0].pointer.name, value.op
    return None, None


def ends_at(test, stays, value, edge):
    """Whether a test lets a loop stay until a value that goes down meets a number."""
    one, two = test.operands
    if test.op == 'eq':
        return not stays and ((one is value and is_number(two, edge)) or (two is value and is_number(one, edge)))
    return stays and two is value and is_number(one, edge) and (test.op == 'slt' or edge >= 0)


def is_number(value, number):
    return value.op == 'literal' and value.number == number % (1 << value.width)
