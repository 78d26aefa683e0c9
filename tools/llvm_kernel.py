"""A function of LLVM's IR as a kernel: what each instruction becomes, and why a function is none.

`Translation` goes through a function that runs straight on and makes a `kernel_graph.Graph`. What has no counterpart is a `Refusal`.
Nothing is guessed: an instruction that is not known here is refused. docs/from-c.md has the table of what becomes what.
"""
import llvm_ir as ir
from kernel_graph import CASTS, Graph, Parameter, Store, TooMany, Value, WIDTHS, clean_name, literal, signed, text
from llvm_calls import Calls
from llvm_values import (Address, Arithmetic, Base, Choice, Condition, MOST_LEAVES, both, differ, either, forms_of, negated, plus, scaled,
                         spelled)

REASONS = ('floating point', 'vector type', 'branch', 'call', 'variable index', 'shift by data', 'division', 'width', 'pointer in memory',
           'pointer as integer', 'global variable', 'local array', 'carried value', 'too many')
# Of each order of two numbers: the comparison, whether its operands are turned, whether the answer is.
ORDERS = {'eq': ('eq', 0, 0), 'ne': ('eq', 0, 1), 'slt': ('slt', 0, 0), 'sgt': ('slt', 1, 0), 'sle': ('slt', 1, 1), 'sge': ('slt', 0, 1),
          'ult': ('ult', 0, 0), 'ugt': ('ult', 1, 0), 'ule': ('ult', 1, 1), 'uge': ('ult', 0, 1)}


class Refusal(Exception):
    """Why a function is no kernel: one of REASONS, what it is, and the file and line where it stands."""

    def __init__(self, why, what, place=None):
        super().__init__(f'{why}: {what}' + (f' ({place[0]}:{place[1]})' if place else ''))
        self.why, self.what, self.place = why, what, place


class Translation(Arithmetic, Calls):
    """A function as a graph. `rows` gives each linear form of a pointer a parameter of its own, `alone` promises that no two pointers
    meet, `fixed` has numbers for parameters, `both` lets both places of a choice be read. `path` is that of the IR, or None."""

    def __init__(self, module, function, path, rows=False, alone=False, fixed=(), both=False):
        self.module, self.function, self.path, self.rows, self.fixed, self.both = module, function, path, rows, dict(fixed), both
        self.graph, self.known, self.spots, self.instruction = Graph(), {}, {}, None
        self.names, self.integers, self.bases, self.exact = {'ret'}, {}, [], {}
        self.result, self.promised = None, alone
        self.take_parameters()

    # Refusals

    def refuse(self, why, what):
        raise Refusal(why, what, self.where())

    def where(self):
        """The place of the source of the instruction, or of the last one before it that has one; else that of the IR."""
        at = self.instruction
        upto = [one for block in self.function.blocks.values() for one in block if at and one.line <= at.line]
        places = (self.module.place(one.location) for one in sorted(upto, key=lambda one: -one.line))
        found = next((place for place in places if place and place[0] and place[1]), None)
        found = found or self.module.function_place(self.function.location)
        if found and found[0]:
            return found
        return (self.path, at.line if at else self.function.line) if self.path else None

    # Parameters

    def take_parameters(self):
        if self.function.variadic:
            self.refuse('call', 'a function with an open list of arguments')
        for given in self.function.parameters:
            name = clean_name(given.name, self.names)
            self.exact[given.name] = name
            if given.name in self.fixed:
                self.fix(given)
            elif isinstance(given.type, ir.Pointer):
                base = Base('parameter', name, self.promised or bool(given.attributes & {'noalias', 'byval'}))
                self.bases.append(base)
                self.known[given.name] = Address(base, {}, 0)
            else:
                width = self.width(given.type, f'the parameter {given.name}')
                if width == 1:
                    self.refuse('width', f'the parameter {given.name} of 1 bit')
                self.known[given.name] = self.integer(name, width)
            self.names.add(name)
        for name in self.fixed:
            if name not in {given.name for given in self.function.parameters}:
                self.refuse('variable index', f'no parameter {name} is there to be fixed')

    def fix(self, given):
        number = self.fixed[given.name]
        width = self.width(given.type, f'the parameter {given.name}')
        if not -(1 << width - 1) <= number < 1 << width:
            self.refuse('width', f'{number} is no number of the {width} bits of {given.name}')
        self.known[given.name] = literal(width, number)

    def integer(self, name, width):
        value = Value('parameter', width, pointer=Parameter(name, f'i{width}'))
        if width == 64:
            value.forms = (({(name, ''): 1}, 0),) * 2
        else:
            value.forms = ({(name, 'sext'): 1}, 0), ({(name, 'zext'): 1}, 0)
        self.integers[name] = value
        return value

    def width(self, of, what):
        """The bits of an integer type, 1 among them."""
        if isinstance(of, ir.Integer) and of.bits in (1, *WIDTHS):
            return of.bits
        if isinstance(of, ir.Float):
            self.refuse('floating point', f'{what} of type {of}')
        if isinstance(of, ir.Vector):
            self.refuse('vector type', f'{what} of type {of}')
        if isinstance(of, ir.Pointer):
            self.refuse('pointer as integer', what)
        self.refuse('width', f'{what} of type {of}')

    # Values

    def value(self, of, value):
        """What a typed value is: a Value, a bit or an Address."""
        if isinstance(value, ir.Local):
            if value.name not in self.known:
                self.width(of, f'%{value.name}')
                self.refuse('branch', f'%{value.name} is not known where it is used')
            return self.known[value.name]
        if isinstance(of, ir.Pointer):
            return self.address(value)
        width = self.width(of, 'a value')
        if isinstance(value, ir.Number):
            return bool(value.value & 1) if width == 1 else literal(width, value.value)
        if isinstance(value, ir.Zero):
            return False if width == 1 else literal(width, 0)
        if isinstance(value, ir.Undefined):
            self.refuse('local array', f'{value.word}: a number that was never written')
        if isinstance(value, ir.Expression) and value.op in ('ptrtoint', 'sub', 'add'):
            self.refuse('pointer as integer', f'a constant of {value.op}')
        self.refuse('global variable', 'a constant that only the linker knows')

    def address(self, value):
        if isinstance(value, ir.Global):
            return Address(Base('global', value.name), {}, 0)
        if isinstance(value, ir.Expression) and value.op == 'getelementptr' and value.operands:
            return self.walk(value.over, value.operands)
        if isinstance(value, ir.Expression) and value.op == 'bitcast' and value.operands:
            return self.pointer(*value.operands[0])
        if isinstance(value, ir.Undefined):
            self.refuse('local array', f'{value.word}: a pointer that was never written')
        self.refuse('pointer as integer', 'the null pointer' if isinstance(value, ir.Zero) else 'a pointer that is made of a number')

    def pointer(self, of, value):
        if not isinstance(of, ir.Pointer) or of.space:
            self.refuse('vector type' if isinstance(of, ir.Vector) else 'pointer as integer', f'a place of type {of}')
        found = self.value(of, value)
        if isinstance(found, Choice):
            self.refuse('variable index', 'a choice of two places')
        if not isinstance(found, Address):
            self.refuse('pointer as integer', 'a place that is a number')
        return found

    def number(self, of, value):
        """A value of 8 to 64 bits."""
        found = self.value(of, value)
        if not isinstance(found, Value):
            is_place = isinstance(found, (Address, Choice))
            self.refuse('pointer as integer' if is_place else 'width', 'an address as a number' if is_place else 'a bit')
        return found

    def bit(self, of, value):
        found = self.value(of, value)
        if isinstance(found, (Value, Address, Choice)):
            self.refuse('width', 'a number in the place of a bit')
        return found

    # Places

    def spot(self, address):
        """The parameter of a kernel through which an address is reached."""
        if address.base.kind == 'global':
            self.refuse('global variable', f'@{address.base.name}')
        if not -(1 << 31) <= address.offset < 1 << 31:
            self.refuse('variable index', f'{address.base.name} + {address.offset} lies too far')
        return self.spot_of(address.base, address.terms)

    def spot_of(self, base, terms):
        if terms and not self.rows:
            self.refuse('variable index', f'{base.name} {spelled(terms)}')
        return self.row(base, terms, 0)

    def row(self, base, terms, step):
        key = base, tuple(sorted(terms.items())), step
        if key not in self.spots:
            more = ''.join('_' + 'm' * (number < 0) + (str(abs(number)) if abs(number) != 1 else '') + word for (word, _), number in key[1])
            if any(other[:2] == key[:2] for other in self.spots):
                more += f'_by_{step}'
            name = clean_name(base.name + more, self.names) if more else base.name
            self.names.add(name)
            self.spots[key] = Parameter(name, 'ptr', base.alone, step)
        return self.spots[key]

    def load(self, address, width):
        if address.base.kind == 'local':
            return self.local_load(address, width)
        if address.base.kind == 'global':
            return self.constant(address, width)
        made = Value('load', width, (), address.offset, self.spot(address), self.instruction)
        return self.graph.put(made)

    def store(self, address, value):
        if address.base.kind == 'local':
            if address.terms:
                self.refuse('local array', f'%{address.base.name} at a place that is not constant')
            for k in range(value.width // 8):
                address.base.bytes[address.offset + k] = value, k
            return
        self.graph.put(Store(self.spot(address), address.offset, value))

    def constant(self, address, width):
        """The number that a table has at a constant place."""
        name = address.base.name
        variable = self.module.variable(name)
        if address.terms or variable is None:
            self.refuse('global variable', f'@{name}' + (' at a place that is not constant' if address.terms else ''))
        found = [self.module.constant_byte(variable.type, variable.value, address.offset + k) for k in range(width // 8)]
        if None in found:
            self.refuse('global variable', f'@{name} at {address.offset}, where its bytes are not known')
        return literal(width, int.from_bytes(bytes(found), 'little'))

    def local_load(self, address, width):
        """A number that the function wrote to an array of its own, put together from what was written last."""
        name = address.base.name
        if address.terms:
            self.refuse('local array', f'%{name} at a place that is not constant')
        found = [address.base.bytes.get(address.offset + k) for k in range(width // 8)]
        if None in found:
            self.refuse('local array', f'%{name} at {address.offset + found.index(None)}, where nothing was written')
        whole, at = None, 0
        while at < len(found):
            value, first = found[at]
            size = 1
            while at + size < len(found) and found[at + size] == (value, first + size):
                size += 1
            piece = self.piece(value, first, size, width)
            piece = self.shift('shl', piece, 8 * at)
            whole = piece if whole is None else self.two('or', whole, piece)
            at += size
        return whole

    def piece(self, value, first, size, width):
        """Some bytes of a number, as a number of this width."""
        moved = self.shift('lshr', value, 8 * first)
        moved = self.cast('trunc' if width < value.width else 'zext', width, moved)
        if 8 * size < min(width, value.width - 8 * first):
            moved = self.two('and', moved, literal(width, (1 << 8 * size) - 1))
        return moved

    def walk(self, over, operands):
        """The address that `getelementptr` gives."""
        start = self.value(*operands[0])
        if isinstance(start, Choice):
            return Choice(start.bit, self.walk_from(start.one, over, operands), self.walk_from(start.two, over, operands))
        return self.walk_from(self.pointer(*operands[0]), over, operands)

    def walk_from(self, start, over, operands):
        if isinstance(start, Choice):
            self.refuse('variable index', 'a choice of more than two places')
        terms, offset, of = start.terms, start.offset, over
        for at, (kind, index) in enumerate(operands[1:]):
            if isinstance(kind, ir.Vector):
                self.refuse('vector type', 'pointers in a vector')
            form = forms_of(self.number(kind, index))[0]
            if at:
                of = self.module.known(of)
                if isinstance(of, ir.Struct):
                    offset, of = self.field(of, form, offset)
                    continue
                if not isinstance(of, (ir.Array, ir.Vector)):
                    raise ir.Malformed(self.instruction.line, f'no element of {of}')
                of = of.of
            size = self.module.size(of)[0]
            if form is None:
                self.refuse_place(start.base)
            terms, offset = plus((terms, offset), scaled(form, size))
        return Address(start.base, terms, signed(offset % (1 << 64), 64))

    def refuse_place(self, base):
        """Refuses a place that data chooses."""
        if base.kind == 'global':
            self.refuse('global variable', f'@{base.name} at a place that is not constant')
        if base.kind == 'local':
            self.refuse('local array', f'%{base.name} at a place that is not constant')
        self.refuse('variable index', f'{base.name} at a place that is no sum of parameters, or one that may wrap')

    def field(self, of, form, offset):
        if form is None or form[0] or not 0 <= form[1] < len(of.fields):
            raise ir.Malformed(self.instruction.line, f'no field of {of}'[:80])
        return offset + self.module.fields(of)[0][form[1]], of.fields[form[1]]

    # Instructions

    def run(self):
        """Goes through the function from its first block to a `ret`."""
        label, before, seen = next(iter(self.function.blocks), None), None, set()
        while label is not None:
            if label in seen:
                self.refuse('branch', 'a loop whose turns are not written out')
            seen.add(label)
            label, before = self.block(label, before, seen), label
        return self

    def block(self, label, before, seen):
        """Runs a block, and gives the next one or None after a `ret`."""
        for at in self.block_of(label):
            self.instruction = at
            if at.op == 'br':
                return self.branch(at.parts, seen)
            if at.op == 'ret':
                self.end(at.parts['value'])
                return None
            if at.op == 'phi':
                self.phi(at, before)
            else:
                self.step(at)
        raise ir.Malformed(self.instruction.line if self.instruction else self.function.line, f'the block {label!r} has no end')

    def block_of(self, label):
        if label not in self.function.blocks:
            raise ir.Malformed(self.instruction.line if self.instruction else self.function.line, f'no block {label[:40]!r}')
        return self.function.blocks[label]

    def branch(self, parts, seen):
        if parts['condition'] is None:
            return parts['to'][0]
        bit = self.bit(*parts['condition'])
        if not isinstance(bit, bool):
            is_loop = any(self.returns(to, seen) for to in parts['to'])
            self.refuse('branch', 'a loop whose count is not constant' if is_loop else 'on data')
        return parts['to'][0 if bit else 1]

    def returns(self, label, seen):
        """Whether a block leads back to one that was run."""
        met, rest = set(), [label]
        while rest:
            at = rest.pop()
            if at in seen:
                return True
            if at not in met and at in self.function.blocks:
                met.add(at)
                last = self.function.blocks[at][-1:]
                rest += last[0].parts['to'] if last and last[0].op == 'br' else []
        return False

    def phi(self, at, before):
        for value, label in at.parts['ways']:
            if label == before:
                self.known[at.name] = self.value(at.parts['type'], value)
                return
        raise ir.Malformed(at.line, f'no way from the block {before!r}')

    def end(self, value):
        if value is None:
            return
        of, given = value
        if isinstance(of, (ir.Struct, ir.Array, ir.Named)):
            self.refuse('width', f'a result of type {of}'[:80])
        if isinstance(of, ir.Pointer):
            self.refuse('pointer as integer', 'the result is a pointer')
        found = self.value(of, given)
        self.result = Parameter('ret', 'ptr', True)
        found = found if isinstance(found, Value) else self.select(found, literal(8, 1), literal(8, 0))
        self.graph.put(Store(self.result, 0, found))

    def step(self, at):
        """One instruction that is no end of a block."""
        if at.op in ir.BINARY:
            made = self.binary(at)
        elif at.op in ir.CASTS:
            made = self.cast_of(at)
        elif hasattr(self, 'do_' + at.op):
            made = getattr(self, 'do_' + at.op)(at.parts)
        else:
            self.other(at)
        if at.name is not None and made is not None:
            self.known[at.name] = made

    def other(self, at):
        """An instruction that has no counterpart."""
        if at.op in ('switch', 'indirectbr', 'callbr', 'unreachable'):
            self.refuse('branch', at.op)
        if at.op in ('fcmp', 'fneg'):
            self.refuse('floating point', at.op)
        if at.op in ('extractelement', 'insertelement', 'shufflevector'):
            self.refuse('vector type', at.op)
        self.refuse('call', f'the instruction {at.op[:40]}')

    def binary(self, at):
        op, parts = at.op, at.parts
        width = self.width(parts['type'], op)
        if op[0] == 'f' and op[1:] in ('add', 'sub', 'mul', 'div', 'rem'):
            raise ir.Malformed(at.line, f'{op} of integers')
        if width == 1:
            return self.bits(op, self.bit(parts['type'], parts['first']), self.bit(parts['type'], parts['second']))
        one, two = self.number(parts['type'], parts['first']), self.number(parts['type'], parts['second'])
        if op in ('shl', 'lshr', 'ashr'):
            made = self.shifted(op, one, two)
        elif op in ('udiv', 'sdiv', 'urem', 'srem'):
            return self.divided(op, one, two, 'exact' in at.flags)
        else:
            made = self.two(op, one, two)
        self.keep_forms(made, op, one, two, at.flags)
        return made

    def keep_forms(self, made, op, one, two, flags):
        """The linear forms of a sum and the like, where it cannot wrap."""
        if made.op not in ('add', 'sub', 'mul', 'shl', 'or') or made.forms != (None, None):
            return
        wide = made.width == 64
        made.forms = tuple(self.form(op, forms_of(one)[k], forms_of(two)[k], two) if wide or flag in flags or op == 'or' else None
                           for k, flag in enumerate(('nsw', 'nuw')))

    def form(self, op, one, two, second):
        if op in ('add', 'sub'):
            return plus(one, two, 1 if op == 'add' else -1)
        if op == 'shl':
            return scaled(one, 1 << second.number) if second.op == 'literal' else None
        if op == 'mul' and one is not None and two is not None:
            return scaled(one, two[1]) if not two[0] else scaled(two, one[1]) if not one[0] else None
        if op == 'or' and one is not None and two is not None and not two[0] and two[1] >= 0:
            grain = 1 << two[1].bit_length()
            return plus(one, two) if all(number % grain == 0 for number in (*one[0].values(), one[1])) else None
        return None

    def bits(self, op, one, two):
        made = {'and': both, 'mul': both, 'or': either, 'xor': differ, 'add': differ, 'sub': differ}.get(op)
        if made is None:
            self.refuse('width', f'{op} of bits')
        return self.kept(made(one, two))

    def kept(self, bit):
        """A bit that is not too large to stand in choices."""
        return self.narrowed(bit) if not isinstance(bit, bool) and bit.leaves > MOST_LEAVES else bit

    def shifted(self, op, one, two):
        if two.op != 'literal':
            self.refuse('shift by data', op)
        if two.number >= one.width:
            self.refuse('shift by data', f'{op} of {one.width} bits by {two.number}, which means nothing')
        return self.shift(op, one, two.number)

    def divided(self, op, one, two, exact):
        """Quotients and rests by a power of two."""
        if two.op != 'literal' or two.number == 0 or two.number & (two.number - 1) or (op[0] == 's' and two.number >> (one.width - 1)):
            self.refuse('division', f'{op} by ' + (str(signed(two.number, two.width)) if two.op == 'literal' else 'data'))
        places = two.number.bit_length() - 1
        if op == 'udiv' or (op == 'sdiv' and exact):
            return self.shift('lshr' if op == 'udiv' else 'ashr', one, places)
        if op == 'urem':
            return self.two('and', one, literal(one.width, two.number - 1))
        if places == 0:
            return one if op == 'sdiv' else literal(one.width, 0)
        sign = self.shift('lshr', self.shift('ashr', one, one.width - 1), one.width - places)
        quotient = self.shift('ashr', self.two('add', one, sign), places)
        return quotient if op == 'sdiv' else self.two('sub', one, self.shift('shl', quotient, places))

    def cast_of(self, at):
        op, of, to, value = at.op, at.parts['type'], at.parts['to'], at.parts['value']
        if op in ('ptrtoint', 'inttoptr', 'addrspacecast'):
            self.refuse('pointer as integer', op)
        if op == 'bitcast' and isinstance(of, ir.Pointer) and isinstance(to, ir.Pointer):
            return self.value(of, value)
        if op[:2] == 'fp' or op[2:] == 'tofp':
            self.refuse('floating point', op)
        width, wanted = self.width(of, op), self.width(to, op)
        found = self.value(of, value)
        if op == 'bitcast' and width == wanted:
            return found
        if op not in CASTS or (wanted <= width if op != 'trunc' else wanted >= width):
            raise ir.Malformed(at.line, f'{op} of {width} to {wanted} bits')
        if width == 1:
            return self.select(self.bit(of, value), literal(wanted, -1 if op == 'sext' else 1), literal(wanted, 0))
        if wanted == 1:
            return self.compared('eq', self.two('and', self.number(of, value), literal(width, 1)), literal(width, 1))
        return self.cast(op, wanted, self.number(of, value))

    def do_icmp(self, parts):
        order, of = parts['order'], parts['type']
        if isinstance(of, ir.Pointer):
            self.refuse('pointer as integer', 'a comparison of pointers')
        if self.width(of, 'icmp') == 1:
            return self.compared_bits(order, self.bit(of, parts['first']), self.bit(of, parts['second']))
        one, two = self.number(of, parts['first']), self.number(of, parts['second'])
        op, is_turned, is_negated = ORDERS[order]
        made = self.compared(op, *((two, one) if is_turned else (one, two)))
        return negated(made) if is_negated else made

    def compared_bits(self, order, one, two):
        """An order of two bits, of which with a sign 1 is the lesser."""
        op, is_turned, is_negated = ORDERS[order]
        one, two = (two, one) if is_turned else (one, two)
        made = negated(differ(one, two)) if op == 'eq' else both(negated(one), two) if op == 'ult' else both(one, negated(two))
        return self.kept(negated(made) if is_negated else made)

    def do_select(self, parts):
        (of_bit, bit), (of, one), (_, two) = parts['operands']
        if isinstance(of_bit, ir.Vector):
            self.refuse('vector type', 'select')
        bit = self.bit(of_bit, bit)
        if isinstance(of, ir.Pointer):
            if isinstance(bit, bool):
                return self.value(of, one if bit else two)
            if not self.both:
                self.refuse('variable index', 'a choice of two places, of which one is read (--both reads both)')
            return Choice(bit, self.pointer(of, one), self.pointer(of, two))
        if self.width(of, 'select') > 1:
            return self.select(bit, self.number(of, one), self.number(of, two))
        one, two = self.bit(of, one), self.bit(of, two)
        if isinstance(bit, bool):
            return one if bit else two
        if isinstance(one, bool):
            return self.kept(either(bit, two) if one else both(negated(bit), two))
        if isinstance(two, bool):
            return self.kept(either(negated(bit), one) if two else both(bit, one))
        return self.kept(Condition('choose', bit, one, two))

    def do_freeze(self, parts):
        return self.value(parts['type'], parts['value'])

    def do_getelementptr(self, parts):
        return self.walk(parts['over'], parts['operands'])

    def do_alloca(self, parts):
        if parts['count'] is not None and not isinstance(parts['count'][1], ir.Number):
            self.refuse('local array', 'an array whose size is data')
        return Address(Base('local', self.instruction.name), {}, 0)

    def accessed(self, of, special, what):
        """The width of an access."""
        for word in special:
            self.refuse('call', f'a {word} {what}')
        if isinstance(of, ir.Pointer):
            self.refuse('pointer in memory', what)
        width = self.width(of, what)
        if width == 1:
            self.refuse('width', f'{what} of 1 bit')
        return width

    def do_load(self, parts):
        width = self.accessed(parts['type'], parts['special'], 'load')
        place = self.value(*parts['place'])
        if isinstance(place, Choice):
            return self.select(place.bit, self.load(place.one, width), self.load(place.two, width))
        return self.load(self.pointer(*parts['place']), width)

    def do_store(self, parts):
        self.accessed(parts['value'][0], parts['special'], 'store')
        value = self.number(*parts['value'])
        self.store(self.pointer(*parts['place']), value)

    # The whole

    def parameters(self):
        """The parameters of the kernel, in the order of the function's."""
        made = []
        for base in self.bases:
            rows = [(key, spot) for key, spot in self.spots.items() if key[0] is base]
            rows.sort(key=lambda row: (sum(abs(n) for _, n in row[0][1]), row[0][1], row[0][2]))
            if len(rows) > 1 and not self.promised:
                for _, spot in rows:
                    spot.alone = False
            made.append((base.name, [spot for _, spot in rows] or ([] if self.rows else [Parameter(base.name, 'ptr', base.alone)])))
        used = set(self.graph.live())
        for name, value in self.integers.items():
            made.append((name, [value.pointer] if value in used or self.is_wanted(name) else []))
        order = list(self.exact.values())
        made.sort(key=lambda pair: order.index(pair[0]))
        return [spot for _, spots in made for spot in spots] + ([self.result] if self.result else [])

    def is_wanted(self, name):
        """Whether an integer is a parameter although no value is made of it."""
        return not self.rows

    def notes(self):
        """What each parameter is that the function has not, and what was fixed."""
        lines = [f'{self.exact[name]} = {number}' for name, number in self.fixed.items()]
        order = self.parameters()
        for (base, terms, _), spot in sorted(self.spots.items(), key=lambda pair: order.index(pair[1])):
            if spot.name != base.name:
                lines.append(f'{spot.name} = {base.name}' + (f' {spelled(dict(terms))}' if terms else ''))
        return lines

    def text(self, notes=()):
        self.check_turns()
        try:
            return text(clean_name(self.function.name, ()), self.graph, self.parameters(), [*notes, *self.notes()], self.times())
        except TooMany as fault:
            self.instruction = None
            self.refuse('too many', str(fault))

    def times(self):
        return None

    def check_turns(self):
        """Nothing to be seen to where there are no turns."""
