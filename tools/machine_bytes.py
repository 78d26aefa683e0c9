"""The values of machine code as rows of bytes, and the lines of the program that compute them.

Each byte of a register or of the stack is a number, or a `Part`: byte `at` of a scalar or of a vector register of the program, of an
address, or of something that is not known. So moves cost nothing until a line wants a scalar or a register of the program.
"""
import collections, re

from machine_code import Refused

Part = collections.namedtuple('Part', 'of at')
Scalar = collections.namedtuple('Scalar', 'name width')
Address = collections.namedtuple('Address', 'base offset')
Unknown = collections.namedtuple('Unknown', 'why what')
STACK = '*stack'
UNDEFINED = Part(Unknown('undefined bits used', ''), 0)
MOST_SOURCES = 4
# The form in which multiples of a value stay sums of its shifts.
SUMS = 'sums'
ENTRY = 'INSTRUCTION {name} {parameters}\nRESULT dst {width} UI{lanes} EXTENSION AVX2 COST 1 OPERATION\n{body}\nEND\n'
ELEMENTS = {8: 'byte', 16: 'word', 32: 'dword', 64: 'qword'}


class Row:
    """A vector register of the program: its name, its bits, the bits of the lanes that made it, its bytes that are known to be 0, and
    what it is made of, where that is known: `('gt', lanes, a, b)` and the like."""

    def __init__(self, name, width, lanes, zeros=frozenset(), made=None):
        self.name, self.width, self.lanes, self.zeros, self.made = name, width, lanes, zeros, made

    def parts(self):
        return [Part(self, k) for k in range(self.width // 8)]


def numbered(number, size):
    """The bytes of a number."""
    return [number >> 8 * k & 255 for k in range(size)]


def parts_of(what, size):
    return [Part(what, k) for k in range(size)]


def number_of(refs):
    """The number that bytes are, or None."""
    return sum(ref << 8 * k for k, ref in enumerate(refs)) if all(isinstance(ref, int) for ref in refs) else None


def is_zero(ref):
    return ref == 0 or isinstance(ref, Part) and isinstance(ref.of, Row) and ref.at in ref.of.zeros


def whole(refs):
    """What bytes are all bytes of, in their order, or None."""
    first = refs[0]
    if not isinstance(first, Part) or isinstance(first.of, Unknown) or first.at:
        return None
    size = first.of.width // 8 if isinstance(first.of, (Row, Scalar)) else 8
    return first.of if len(refs) == size and all(ref == Part(first.of, k) for k, ref in enumerate(refs)) else None


def row_with(refs):
    """The row that has these bytes, where one has them in their places, or None."""
    row = next((ref.of for ref in refs if isinstance(ref, Part)), None)
    fits = isinstance(row, Row) and row.width == 8 * len(refs) \
        and all(ref == Part(row, k) or ref == 0 and k in row.zeros for k, ref in enumerate(refs))
    return row if fits else None


def padded(refs, size):
    """Bytes with others after them that nothing reads: those of their row, where there are such."""
    row = refs[0].of if isinstance(refs[0], Part) else None
    if isinstance(row, Row) and row.width == 8 * size and refs == row.parts()[:len(refs)]:
        return row.parts()
    return refs + [0] * (size - len(refs))


def signed(number, width):
    return number - (number >> width - 1 << width)


def pieces(refs):
    """Bytes as runs: numbers, and neighbouring bytes of one source; each as (place, bytes)."""
    runs = []
    for k, ref in enumerate(refs):
        last = runs[-1][1] if runs else None
        if last and (isinstance(ref, int) and isinstance(last[-1], int)
                     or isinstance(ref, Part) and isinstance(last[-1], Part) and ref == Part(last[-1].of, last[-1].at + 1)):
            last.append(ref)
        else:
            runs.append((k, [ref]))
    return runs


class Writer:
    """A program as it is written: its lines, and the entries that it calls. `library` are the texts of the library's entries with their
    costs, by name; `form` is the suffix of further texts that are taken where there are such."""

    def __init__(self, kernel, library, form=''):
        self.kernel, self.library, self.form = kernel, library, form
        self.lines, self.known, self.cost, self.scalars, self.rows = [], {}, 0, 0, 0
        self.entries, self.texts, self.compared = {}, {}, {}
        self.extremes, self.multiples, self.sums = {}, {}, {}

    # Lines

    def put(self, line, cost=1):
        self.lines.append(line)
        self.cost += cost

    def scalar(self, width, text, again=True):
        """A scalar that a line defines; with `again` one that is there already is taken."""
        if again and (width, text) in self.known:
            return self.known[width, text]
        made = Scalar(f'%s{self.scalars}', width)
        self.scalars += 1
        self.put(f'{made.name}:i{width} = {text}')
        self.known[width, text] = made
        return made

    def row(self, width, text, lanes, again=True, cost=1, **more):
        if again and text in self.known:
            return self.known[text]
        made = Row(f'%v{self.rows}', width, lanes, **more)
        self.rows += 1
        self.put(f'{made.name} = {text}', cost)
        self.known[text] = made
        return made

    @staticmethod
    def word(value, width):
        """An operand as the text has it."""
        return value.name if isinstance(value, Scalar) else f'{value % (1 << width)}i{width}'

    # Scalars

    def operand(self, refs):
        """Bytes as an operand: a number, or a scalar of as many bits."""
        number = number_of(refs)
        if number is not None:
            return number
        self.check(refs)
        found = whole(refs)
        if isinstance(found, Scalar):
            return found
        zeros = next(k for k, ref in enumerate(refs) if ref != 0)
        inner = refs[zeros].of if isinstance(refs[zeros], Part) else None
        if zeros and isinstance(inner, Scalar) and inner.width == 8 * len(refs) and refs[zeros:] == parts_of(inner, len(refs) - zeros):
            return self.shift('shl', inner, 8 * zeros, inner.width)
        turned = whole(refs[::-1])
        if isinstance(turned, Scalar) and len(refs) in (4, 8) and self.form != 'bytes':
            return self.turned(turned, 8 * len(refs))
        return self.joined(pieces(refs), 8 * len(refs))

    def turned(self, value, width):
        """The number with its bytes in the other order, by shifts and masks."""
        total = None
        for at in range(0, width // 2, 8):
            far = width - 8 - 2 * at
            for name, mask in (('lshr', 255 << at), ('shl', 255 << width - 8 - at)):
                one = self.shift(name, value, far, width)
                one = self.binary('and', one, mask, width) if at else one
                total = one if total is None else self.binary('or', total, one, width)
        return total

    @staticmethod
    def check(refs):
        """Refuses bytes that are no number of the program."""
        for ref in refs:
            if isinstance(ref, Part) and isinstance(ref.of, Unknown):
                raise Refused(*ref.of)
            if isinstance(ref, Part) and isinstance(ref.of, Address):
                raise Refused('variable address' if ref.of.base == STACK else 'branch on pointers', 'a pointer as a number')

    def joined(self, runs, width):
        """Runs of bytes as one number: each in its place, joined by `or`."""
        total = None
        for at, run in runs:
            number = number_of(run)
            one = number << 8 * at if number is not None \
                else self.shift('shl', self.extended('zext', self.piece(run), width), 8 * at, width)
            total = one if total is None else self.binary('or', total, one, width)
        return total

    def piece(self, run):
        """Neighbouring bytes of one source as a scalar of the least width that has room."""
        source, at, size = run[0].of, run[0].at, len(run)
        room = next(bits for bits in (1, 2, 4, 8) if bits >= size)
        if isinstance(source, Scalar):
            moved = self.shift('lshr', source, 8 * at, source.width)
            made = self.truncated(moved, 8 * room) if 8 * room < source.width else moved
        elif at % size == 0 and room == size:
            made = self.scalar(8 * size, f'extract {source.name} {at // size}')
        else:
            made = self.scalar(8 * room, f'extract {self.register([*run, *[0] * (16 - size)]).name} 0')
        return made if room == size or isinstance(source, Row) \
            else self.binary('and', made, (1 << 8 * size) - 1, made.width) if at + size < source.width // 8 else made

    def truncated(self, value, width):
        return value if isinstance(value, int) or value.width == width else self.scalar(width, f'trunc {value.name}')

    def extended(self, how, value, width):
        if isinstance(value, int):
            raise ValueError('a number has no width')
        return value if value.width == width else self.scalar(width, f'{how} {value.name}')

    def binary(self, name, a, b, width):
        """A line of two operands, or what it gives of numbers."""
        mask = (1 << width) - 1
        if isinstance(a, int) and isinstance(b, int):
            return {'add': a + b, 'sub': a - b, 'mul': a * b, 'and': a & b, 'or': a | b, 'xor': a ^ b}[name] & mask
        if b == 0 and name in ('add', 'sub', 'or', 'xor') or b == mask and name == 'and' or b == 1 and name == 'mul':
            return a
        if a == 0 and name in ('add', 'or', 'xor') or a == mask and name == 'and' or a == 1 and name == 'mul':
            return b
        if a == b and name in ('sub', 'xor') or 0 in (a, b) and name in ('and', 'mul'):
            return 0
        if a == b and name in ('and', 'or'):
            return a
        if a == b and name == 'add':
            return self.shift('shl', a, 1, width)
        if name in ('add', 'sub') and isinstance(a, Scalar) and isinstance(b, Scalar) and self.form != SUMS:
            (one, many), (two, more) = self.multiples.get(a, (a, 1)), self.multiples.get(b, (b, 1))
            if one == two:
                return self.binary('mul', one, (many + more if name == 'add' else many - more) & mask, width)
        if name == 'sub' and b in self.sums and self.form != SUMS:
            word, x, y = self.sums[b]
            return self.binary('sub' if word == 'add' else 'add', self.binary('sub', a, x, width), y, width)
        made = self.scalar(width, f'{name} {self.word(a, width)} {self.word(b, width)}')
        if name in ('add', 'sub') and a != 0:
            self.sums[made] = name, a, b
        if name == 'mul' and isinstance(b, int):
            self.multiples[made] = a, b
        return made

    def shift(self, name, a, count, width):
        if count >= width:
            if name != 'ashr':
                return 0
            count = width - 1
        if count == 0:
            return a
        if isinstance(a, int):
            return {'shl': a << count, 'lshr': a >> count, 'ashr': signed(a, width) >> count}[name] & (1 << width) - 1
        made = self.scalar(width, f'{name} {a.name} {count}')
        if name == 'shl':
            base, many = self.multiples.get(a, (a, 1))
            self.multiples[made] = base, many << count & (1 << width) - 1
        return made

    def compare(self, name, a, b, width):
        """A comparison: True, False, or a scalar of one bit."""
        if isinstance(a, int) and isinstance(b, int):
            return {'eq': a == b, 'slt': signed(a, width) < signed(b, width), 'ult': a < b}[name]
        made = self.scalar(1, f'{name} {self.word(a, width)} {self.word(b, width)}')
        self.compared[made] = name, a, b
        return made

    def choose(self, condition, a, b, width):
        """a where the condition holds, else b; the lesser or the greater of two where it is one."""
        if isinstance(condition, bool):
            return a if condition else b
        if a == b:
            return a
        name, x, y = self.compared[condition]
        if name == 'slt' and y == 0 and x == b and self.are_opposite(a, b, width):
            return self.scalar(width, f'smax {self.word(a, width)} {self.word(b, width)}')
        if name != 'eq' and (a, b) in ((x, y), (y, x)):
            return self.extreme(name[0], 'min' if a == x else 'max', x, y, width)
        return self.scalar(width, f'select {condition.name} {self.word(a, width)} {self.word(b, width)}')

    def extreme(self, sign, which, x, y, width):
        """The lesser or the greater of two; a clamp with its greater first, as tools/from-c writes it."""
        value, number = (y, x) if isinstance(x, int) else (x, y)
        inner = self.extremes.get(value)
        if which == 'max' and isinstance(number, int) and inner and inner[0] == sign:
            end = (lambda one: signed(one, width)) if sign == 's' else lambda one: one
            if end(number) <= end(inner[2]):
                return self.extreme(sign, 'min', self.extreme(sign, 'max', inner[1], number, width), inner[2], width)
        made = self.scalar(width, f'{sign}{which} {self.word(x, width)} {self.word(y, width)}')
        if which == 'min' and isinstance(number, int):
            self.extremes[made] = sign, value, number
        return made

    def are_opposite(self, a, b, width):
        """Whether one of two scalars is 0 less the other."""
        return any(isinstance(x, Scalar) and self.known.get((width, f'sub 0i{width} {x.name}')) == y for x, y in ((a, b), (b, a)))

    # Vector registers

    def register(self, refs):
        """A register of the program that has these bytes."""
        found = row_with(refs)
        if found:
            return found
        self.check(refs)
        number = number_of(refs)
        if number is not None:
            zeros = frozenset(k for k, ref in enumerate(refs) if ref == 0)
            return self.row(8 * len(refs), 'const ' + bytes(refs).hex(), 64, zeros=zeros)
        products = self.products(refs)
        return self.register(products) if products != refs else self.inserted(refs)

    def products(self, refs):
        """The bytes, those of the low and the high halves of products of words beside each other as those of products of 32 bits."""
        made = list(refs)
        for k in range(0, len(refs), 4):
            low, high = refs[k], refs[k + 2]
            if not all(isinstance(ref, Part) and isinstance(ref.of, Row) and ref.of.made for ref in (low, high)) or low.at % 2:
                continue
            one, two = low.of.made, high.of.made
            if one[0] == 'pmullw' and two[0] in ('pmulhw', 'pmulhuw') and one[1:] == two[1:] \
                    and refs[k:k + 4] == [low, Part(low.of, low.at + 1), Part(high.of, low.at), Part(high.of, low.at + 1)]:
                made[k:k + 4] = self.product(one[1], one[2], 'SI16' if two[0] == 'pmulhw' else 'UI16', low.at // 2)
        return made

    def product(self, a, b, kind, word):
        """The bytes of the product of 32 bits of word `word` of two registers."""
        lanes = len(a) // 4
        first = word // lanes * lanes
        body = '\n'.join(f' dst.dword[{k}] := a.word[{first + k}] * b.word[{first + k}]' for k in range(lanes))
        row = self.own('products', [self.register(list(a)), self.register(list(b))], 8 * len(a), 32, body, [kind, kind])
        return [Part(row, 4 * (word - first) + k) for k in range(4)]

    def inserted(self, refs):
        """The register with its scalars put into lanes of their own, the other bytes moved there before."""
        scalars, rest = [], list(refs)
        for at, run in pieces(refs):
            if isinstance(run[0], Part) and isinstance(run[0].of, Scalar):
                source = run[0].of
                size = source.width // 8
                if run[0].at or len(run) != size or at % size:
                    source = self.piece(run)
                    size = source.width // 8
                    if at % size or size != len(run):
                        rest[at:at + len(run)] = self.row_of_scalar(source).parts()[:len(run)]
                        continue
                scalars.append((at // size, source))
                rest[at:at + size] = [0] * size
        if not scalars:
            return self.moved(rest)
        made = self.register(rest)
        for lane, source in scalars:
            made = self.row(made.width, f'insert {made.name} {lane} {source.name}', min(source.width, made.lanes))
        return made

    def row_of_scalar(self, scalar):
        return self.row(128, f'insert {self.register([0] * 16).name} 0 {scalar.name}', scalar.width)

    def moved(self, refs):
        """The register whose bytes are moved from others, by one entry of moves for each four of them."""
        sources = []
        for ref in refs:
            if isinstance(ref, Part) and ref.of not in sources:
                sources.append(ref.of)
        if row_with(refs):
            return row_with(refs)
        if not sources:
            return self.register(refs)
        if len(sources) > MOST_SOURCES:
            early = sources[:MOST_SOURCES]
            made = self.moved([ref if isinstance(ref, Part) and ref.of in early else 0 for ref in refs])
            return self.moved([Part(made, k) if isinstance(ref, Part) and ref.of in early else ref for k, ref in enumerate(refs)])
        swapped = self.swapped(refs) if len(sources) == 1 and sources[0].width == 8 * len(refs) else 0
        if swapped:
            name = f'seq_swap_epi{swapped}' + ('_256' if len(refs) == 32 else '')
            if self.form == 'bytes':
                name = f'seq_swap_epi{swapped}_bytes' + ('_256' if len(refs) == 32 else '')
            return self.call(name, sources, 8 * len(refs), swapped)
        shift = self.lane_shift(refs, sources[0]) if len(sources) == 1 and self.form != 'bytes' else None
        if shift:
            name = f'{"_mm256" if len(refs) == 32 else "_mm"}_{shift[0]}_epi{sources[0].lanes}'
            return self.call(name, sources, 8 * len(refs), sources[0].lanes, shift[1])
        lanes = self.lanes_of(refs)
        body = '\n'.join(self.moves(refs, lanes, dict(zip(sources, 'abcd'))))
        zeros = frozenset(k for k, ref in enumerate(refs) if is_zero(ref))
        return self.own('moves', sources, 8 * len(refs), lanes, body, zeros=zeros)

    @staticmethod
    def swapped(refs):
        """The bits of the lanes of which the bytes stand in the other order, or 0."""
        for size in (2, 4, 8):
            if all(isinstance(ref, Part) and ref.at == k - k % size + size - 1 - k % size for k, ref in enumerate(refs)):
                return 8 * size
        return 0

    @staticmethod
    def lane_shift(refs, row):
        """The name and the bits of a shift by whole bytes of the lanes that made a row, which gives these bytes; None where none does."""
        size = row.lanes // 8
        if row.width != 8 * len(refs):
            return None
        for many in range(1, size):
            for name, by in (('srli', many), ('slli', -many)):
                if refs == [Part(row, k + by) if 0 <= k % size + by < size else 0 for k in range(len(refs))]:
                    return name, 8 * many
        return None

    @staticmethod
    def lanes_of(refs):
        """The widest lanes of which each is moved from one that is as wide at least, or is a number."""
        for size in (8, 4, 2):
            blocks = [refs[k:k + size] for k in range(0, len(refs), size)]
            if all(number_of(block) is not None or isinstance(block[0], Part) and block[0].at % size == 0 and block[0].of.lanes >= 8 * size
                   and all(ref == Part(block[0].of, block[0].at + k) for k, ref in enumerate(block)) for block in blocks):
                return 8 * size
        return 8

    @staticmethod
    def moves(refs, lanes, names):
        """The statements that move, one for each lane that is not 0."""
        size = lanes // 8
        for at in range(0, len(refs), size):
            first = refs[at]
            if isinstance(first, Part):
                yield f' dst[{8 * at + lanes - 1}:{8 * at}] := {names[first.of]}[{8 * first.at + lanes - 1}:{8 * first.at}]'
            elif number := number_of(refs[at:at + size]):
                yield f' dst[{8 * at + lanes - 1}:{8 * at}] := {number}'

    def own(self, kind, sources, width, lanes, body, types=None, **more):
        """A call of an entry that is generated here."""
        parameters = ' '.join(f'PARAM {name} {source.width} {types[k] if types else "UI8"}'
                              for k, (name, source) in enumerate(zip('abcd', sources)))
        key = parameters, width, lanes, body
        if key not in self.texts:
            name = f'{kind}_{sum(word.startswith(kind + "_") for word in self.entries)}'
            self.texts[key] = name
            self.entries[name] = ENTRY.format(name=name, parameters=parameters, width=width, lanes=lanes, body=body)
        return self.row(width, f'call {self.texts[key]} {" ".join(source.name for source in sources)}', lanes, **more)

    def call(self, name, sources, width, lanes, immediate=None, **more):
        """A call of an entry of the library, with the further text that is preferred."""
        further = [word for word in (f'{name}_{self.form}',) if self.form and word in self.library]
        name = (further or [name])[0]
        if name not in self.library:
            raise Refused('unknown instruction', f'the library has no {name}')
        text, cost = self.library[name]
        self.entries[name] = text
        tail = '' if immediate is None else f' imm {immediate}'
        return self.row(width, f'call {name} {" ".join(source.name for source in sources)}{tail}', lanes, cost=cost, **more)

    # The text

    def text(self):
        head = ', '.join(f'{word}: {kind}' for word, kind, _ in self.kernel.parameters)
        return '\n'.join([f'program {self.kernel.own_name}({head})', *self.lines, f'end cost {self.cost} scalar 0', ''])

    def entries_text(self):
        return ''.join(self.entries.values())


def library_of(path):
    """The entries of an instruction file: their texts and costs, by name."""
    with open(path, encoding='utf-8') as file:
        text = re.sub(r'//[^\n]*', '', file.read())
    found = re.finditer(r'INSTRUCTION\s+(\S+)\s.*?\sCOST\s+(\d+)\s.*?\nEND\b', text, re.S)
    return {entry[1]: (entry[0] + '\n', int(entry[2])) for entry in found}
