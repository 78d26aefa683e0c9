"""What vector instructions do to the state of a machine: bytes are moved, and lanes are computed by entries of the library."""
import re

from machine_bytes import ELEMENTS, SUMS, Part, Row, Unknown, is_zero, number_of, padded, row_with, signed
from machine_code import Memory, Number, Refused, Register, Vector

BITS = {'b': 8, 'w': 16, 'd': 32, 'q': 64}


def table():
    """Instructions of two operands that are an entry of the library: the name's end, and the bits of the result's lanes."""
    found = {'pmullw': ('mullo_epi16', 16), 'pmulld': ('mullo_epi32', 32), 'pmulhw': ('mulhi_epi16', 16), 'pmulhuw': ('mulhi_epu16', 16),
             'pmulhrsw': ('mulhrs_epi16', 16), 'pmuludq': ('mul_epu32', 64), 'pmuldq': ('mul_epi32', 64), 'pmaddwd': ('madd_epi16', 32),
             'pmaddubsw': ('maddubs_epi16', 16), 'pavgb': ('avg_epu8', 8), 'pavgw': ('avg_epu16', 16), 'psadbw': ('sad_epu8', 64),
             'packsswb': ('packs_epi16', 8), 'packuswb': ('packus_epi16', 8), 'packssdw': ('packs_epi32', 16),
             'packusdw': ('packus_epi32', 16), 'phaddsw': ('hadds_epi16', 16), 'phsubsw': ('hsubs_epi16', 16)}
    for letter, lanes in BITS.items():
        for word in ('add', 'sub'):
            found[f'p{word}{letter}'] = f'{word}_epi{lanes}', lanes
        if lanes < 64:
            for word in ('min', 'max'):
                found[f'p{word}s{letter}'], found[f'p{word}u{letter}'] = (f'{word}_epi{lanes}', lanes), (f'{word}_epu{lanes}', lanes)
            found[f'psign{letter}'] = f'sign_epi{lanes}', lanes
        if lanes < 32:
            for word in ('adds', 'subs'):
                found[f'p{word}{letter}'] = f'{word}_epi{lanes}', lanes
                found[f'p{word[:3]}us{letter}'] = f'{word}_epu{lanes}', lanes
        if lanes in (16, 32):
            for word in ('hadd', 'hsub'):
                found[f'ph{word[1:]}{letter}'] = f'{word}_epi{lanes}', lanes
    return found


TABLE = table()
BROADCAST = {'vpbroadcastb': 1, 'vpbroadcastw': 2, 'vpbroadcastd': 4, 'vpbroadcastq': 8, 'vbroadcasti128': 16, 'vbroadcastf128': 16,
             'vbroadcastss': 4, 'vbroadcastsd': 8}


def parts_by(name, refs):
    """The operands of the bitwise operation that made bytes, in both orders; none where another made them."""
    row = row_with(refs)
    if row and row.made and row.made[:2] == ('bits', name):
        a, b = map(list, row.made[2:])
        yield from ((a, b), (b, a))


class Vectors:
    """The vector part of a machine: `vectors`, 16 rows of 32 bytes."""

    # Operands

    def read(self, operand, size):
        """The low bytes of a vector operand."""
        if isinstance(operand, Vector):
            return self.vectors[operand.number][:size]
        if isinstance(operand, Memory):
            return self.load(self.place(operand), min(size, operand.size or size), True)
        raise Refused('unknown instruction')

    def write(self, i, refs):
        """Writes the first operand: above are zeros, or what was there where the instruction is one of SSE."""
        target = i.operands[0]
        if isinstance(target, Memory):
            return self.store(self.place(target), refs)
        if isinstance(target, Register):
            return self.put(target, (refs + [0] * 8)[:target.size])
        above = self.vectors[target.number][16:] if i.legacy else [0] * 16
        refs = refs + [0] * (16 - len(refs))
        self.vectors[target.number] = refs + above if len(refs) == 16 else refs

    def sources(self, i, count=2):
        size = i.operands[0].size
        return [self.read(operand, size) for operand in i.operands[1:1 + count]]

    @staticmethod
    def immediate(i):
        if not isinstance(i.operands[-1], Number):
            raise Refused('unknown instruction')
        return i.operands[-1].value

    def entry(self, name, operands, lanes, size=None, immediate=None, **more):
        """The bytes that an entry of the library gives."""
        size = size or len(operands[0])
        rows = [self.writer.register(refs) for refs in operands]
        prefix = '_mm256_' if size == 32 else '_mm_'
        return self.writer.call(prefix + name, rows, 8 * size, lanes, immediate, **more).parts()

    # Instructions

    def vector(self, i):
        """Runs a vector instruction."""
        name = i.name
        if name[1:] in TABLE and len(i.operands) == 3:
            return self.write(i, self.arithmetic(i, name[1:]))
        for pattern, act in self.PATTERNS:
            found = pattern.match(name)
            if found:
                made = act(self, i, *found.groups())
                return None if made is None else self.write(i, made)
        raise Refused('unknown instruction')

    def arithmetic(self, i, name):
        a, b = self.sources(i)
        word, lanes = TABLE[name]
        if i.operands[1] == i.operands[2] and name.startswith('psub'):
            return [0] * len(a)
        if name in ('packuswb', 'packusdw') and all(self.narrow(refs, lanes // 8) for refs in (a, b)):
            size = lanes // 8
            return [ref for block in range(0, len(a), 16) for refs in (a, b) for k in range(block, block + 16, 2 * size)
                    for ref in refs[k:k + size]]
        twice = self.packed_twice(a, b) if name in ('packuswb', 'packsswb') else None
        if twice:
            return self.pack_dwords(twice, len(a), name[4])
        if re.match(r'p(add|sub)(u?s)?[bwdq]$', name) and number_of(b) == 0:
            return a
        if re.match(r'padd(u?s)?[bwdq]$', name) and number_of(a) == 0:
            return b
        times = self.sum_of_multiples(a, b, lanes, name[1:4]) if re.match(r'p(add|sub)[wd]$', name) else None
        if times:
            return times
        if re.match(r'p(add|sub)[bwdq]$', name):
            return self.sum(name[1:4], a, b, lanes)
        zeros = frozenset(k for k in range(len(a)) if name == 'psadbw' and k % 8 > 1)
        ordered = re.match(r'p(min|max|subus)([su]?)[bwd]$', name)
        if ordered and ordered[1] == 'max' and (clamp := self.clamp(a, b, lanes, ordered[2]) or self.clamp(b, a, lanes, ordered[2])):
            value, low, high = clamp
            return self.entry('min' + word[3:], [self.entry(word, [value, low], lanes), high], lanes)
        made = ordered and (ordered[1], 's' if ordered[2] == 's' else 'u', tuple(a), tuple(b))
        if name in ('packssdw', 'pmullw', 'pmulhw', 'pmulhuw'):
            made = name, tuple(a), tuple(b)
        return self.entry(word, [a, b], lanes, zeros=zeros, made=made or None)

    @staticmethod
    def multiple(refs, lanes):
        """What lanes are a multiple of by shifts and sums, and how many times that."""
        row = row_with(refs)
        return row.made[2:] if row and row.made and row.made[:2] == ('times', lanes) else (tuple(refs), 1)

    def sum_of_multiples(self, a, b, lanes, word):
        """The sum or the difference of two multiples of one register as a product with a constant, or None."""
        (one, many), (two, more) = self.multiple(a, lanes), self.multiple(b, lanes)
        if one != two or self.writer.form == SUMS or number_of(list(one)) is not None:
            return None
        total = (many + more if word == 'add' else many - more) % (1 << lanes)
        return self.times(list(one), total, lanes)

    def sum(self, word, a, b, lanes):
        """A sum or a difference; what is less a sum is less each of its parts."""
        row = row_with(b)
        if word == 'sub' and row and row.made and row.made[:2] in (('add', lanes), ('sub', lanes)) and self.writer.form != SUMS:
            first = self.sum('sub', a, list(row.made[2]), lanes)
            return self.sum('sub' if row.made[0] == 'add' else 'add', first, list(row.made[3]), lanes)
        return self.entry(f'{word}_epi{lanes}', [a, b], lanes, made=(word, lanes, tuple(a), tuple(b)))

    def times(self, a, number, lanes):
        made = 'times', lanes, tuple(a), number
        constant = [number >> 8 * (k % (lanes // 8)) & 255 for k in range(len(a))]
        return self.entry(f'mullo_epi{lanes}', [a, constant], lanes, made=made)

    @staticmethod
    def packed_twice(a, b):
        """Of each lane that is packed the dword that it was packed of before, as (bytes of a register, lane); None where one was not."""
        found = []
        for block in range(0, len(a), 16):
            for refs in (a, b):
                for k in range(block, block + 16, 2):
                    low, high = refs[k:k + 2]
                    row = low.of if isinstance(low, Part) else None
                    if not isinstance(row, Row) or not row.made or row.made[0] != 'packssdw' or low.at % 2 or high != Part(row, low.at + 1):
                        return None
                    word = low.at // 2
                    found.append((row.made[1 + word % 8 // 4], word // 8 * 4 + word % 4))
        return found

    def pack_dwords(self, lanes, size, sign):
        """Bytes that dwords are packed to at once, in the place of two packs."""
        sources = list(dict.fromkeys(refs for refs, _ in lanes))
        names = dict(zip(sources, 'abcd'))
        if len(sources) > 4:
            half = size // 2
            both = [self.pack_dwords(part, size, sign) for part in (lanes[:half] * 2, lanes[half:] * 2)]
            return both[0][:half] + both[1][:half]
        word = 'SaturateU8' if sign == 'u' else 'Saturate8'
        body = '\n'.join(f' dst.byte[{k}] := {word}({names[refs]}.dword[{lane}])' for k, (refs, lane) in enumerate(lanes))
        rows = [self.writer.register(list(refs)) for refs in sources]
        return self.writer.own('packs', rows, 8 * size, 8, body, ['SI32'] * len(rows)).parts()

    @staticmethod
    def clamp(a, low, lanes, sign):
        """The value, the low end and the high end where `max(a, low)` is a clamp whose lesser was taken first; the other order is the one
        that tools/from-c writes."""
        row = row_with(a)
        if number_of(low) is None or not row or not row.made or row.made[:2] != ('min', sign):
            return None
        x, y = row.made[2:]
        value, high = (x, y) if number_of(y) is not None else (y, x)
        size = lanes // 8
        if number_of(high) is None:
            return None
        ends = [[number_of(refs[k:k + size]) for k in range(0, len(refs), size)] for refs in (low, high)]
        if sign == 's':
            ends = [[signed(number, lanes) for number in row] for row in ends]
        return (list(value), low, list(high)) if all(one <= two for one, two in zip(*ends)) else None

    @staticmethod
    def narrow(refs, size):
        """Whether the upper half of each lane is known to be 0."""
        return all(is_zero(refs[k + j]) for k in range(0, len(refs), 2 * size) for j in range(size, 2 * size))

    def absolute(self, i, letter):
        return self.entry(f'abs_epi{BITS[letter]}', self.sources(i, 1), BITS[letter])

    def compare(self, i, kind, letter):
        a, b = self.sources(i)
        if i.operands[1] == i.operands[2]:
            return [255 if kind == 'eq' else 0] * len(a)
        lanes = BITS[letter]
        made = self.order(a, b) or self.order(b, a) if kind == 'eq' else None
        made = ('gt', made[0] + str(lanes), *made[1:], False) if made else (kind, f'i{lanes}', tuple(a), tuple(b), True)
        return self.entry(f'cmp{kind}_epi{lanes}', [a, b], lanes, made=made)

    @staticmethod
    def order(a, b):
        """Where a is equal to b exactly when x is not greater than y: the sign of that comparison, x and y. So it is where b is the
        lesser or the greater of a and another, or where a is 0 and b a difference that saturates."""
        row = row_with(b)
        if not row or not row.made or row.made[0] not in ('min', 'max', 'subus'):
            return None
        kind, sign, x, y = row.made
        sign = 'u' if sign == 'u' else 'i'
        if kind == 'subus':
            return (sign, x, y) if number_of(a) == 0 else None
        if tuple(a) not in (x, y):
            return None
        other = y if tuple(a) == x else x
        return (sign, tuple(a), other) if kind == 'min' else (sign, other, tuple(a))

    def picked(self, made, yes, no):
        """The bytes yes where a comparison holds, else no."""
        kind, lanes, a, b, straight = made
        if not straight:
            yes, no = no, yes
        name = f'seq_{kind}_blend_ep{lanes}' + ('_256' if len(a) == 32 else '')
        rows = [self.writer.register(list(refs)) for refs in (a, b, yes, no)]
        return self.writer.call(name, rows, 8 * len(a), int(lanes[1:])).parts()

    @staticmethod
    def comparison(refs):
        """What a mask was made by, where it is a comparison of its lanes."""
        row = row_with(refs)
        return row.made if row and row.made and row.made[0] in ('eq', 'gt') else None

    def blend_by_mask(self, i, kind):
        a, b, mask = self.sources(i, 3)
        number = number_of(mask)
        made = self.comparison(mask)
        lanes = {'pblendvb': 8, 'blendvps': 32, 'blendvpd': 64}[kind]
        if number is not None:
            top = lambda k: mask[k - k % (lanes // 8) + lanes // 8 - 1]
            return [b[k] if top(k) & 128 else a[k] for k in range(len(a))]
        if made and int(made[1][1:]) >= lanes:
            return self.picked(made, b, a)
        word = {'pblendvb': 'blendv_epi8', 'blendvps': 'blendv_ps_e32', 'blendvpd': 'blendv_pd_e64'}[kind]
        return self.entry(word, [a, b, mask], lanes)

    def bitwise(self, i, name, _):
        a, b = self.sources(i)
        if i.operands[1] == i.operands[2] and name in ('xor', 'andn'):
            return [0] * len(a)
        if name == 'andn' and number_of(a) is not None:
            a, name = [ref ^ 255 for ref in a], 'and'
        known = [self.known_byte(name, x, y) for x, y in zip(a, b)]
        if all(ref is not None for ref in known):
            return known
        found = self.by_choice(name, a, b)
        if found is not None:
            return found
        merged = self.merged(a, b) or self.merged(b, a) if name == 'xor' and self.writer.form != SUMS else None
        if merged:
            yes, no, mask = merged
            return self.bits('or', self.bits('and', yes, mask), self.bits('andn', mask, no))
        return self.bits(name, a, b)

    def bits(self, name, a, b):
        """The call of an entry for a bitwise operation."""
        lanes = min([ref.of.lanes for ref in a + b if isinstance(ref, Part) and isinstance(ref.of, Row)] or [8])
        word = {'andn': 'andnot'}.get(name, name) + ('_si256' if len(a) == 32 else '_si128') + ('' if lanes == 64 else f'_e{lanes}')
        zeros = frozenset(k for k, (x, y) in enumerate(zip(a, b)) if self.zero_of(name, x, y))
        return self.entry(word, [a, b], lanes, zeros=zeros, made=('bits', name, tuple(a), tuple(b)))

    @staticmethod
    def merged(a, b):
        """Of `a ^ (mask & (a ^ c))`, which has the bits of c where the mask has ones, and else those of a: c, a and the mask; else None."""
        for mask, both in parts_by('and', b):
            for one, other in parts_by('xor', both):
                if one == a:
                    return other, a, mask
        return None

    @staticmethod
    def zero_of(name, x, y):
        if name == 'and':
            return is_zero(x) or is_zero(y)
        return is_zero(y) if name == 'andn' else is_zero(x) and is_zero(y)

    @staticmethod
    def known_byte(name, x, y):
        """What an operation gives of two bytes without a line, or None."""
        if isinstance(x, int) and isinstance(y, int):
            return {'and': x & y, 'or': x | y, 'xor': x ^ y, 'andn': ~x & 255 & y}[name]
        if x == y:
            return x if name in ('and', 'or') or isinstance(x, Part) and isinstance(x.of, Unknown) else 0
        if name == 'andn':
            return 0 if x == 255 or is_zero(y) else y if is_zero(x) else None
        for one, other in ((x, y), (y, x)):
            if is_zero(one):
                return 0 if name == 'and' else other
            if one == 255 and name != 'xor':
                return other if name == 'and' else 255
        return None

    def by_choice(self, name, a, b):
        """A bitwise operation with a mask of a comparison as a choice, or None."""
        one, two = self.comparison(a), self.comparison(b)
        nothing = [0] * len(a)
        if name == 'xor' and (one and number_of(b) == (1 << 8 * len(b)) - 1 or two and number_of(a) == (1 << 8 * len(a)) - 1):
            kind, lanes, x, y, straight = one or two
            word = ('xor_si256' if len(a) == 32 else 'xor_si128') + {'64': ''}.get(lanes[1:], f'_e{lanes[1:]}')
            return self.entry(word, [a, b], int(lanes[1:]), made=(kind, lanes, x, y, not straight))
        if name == 'or':
            rows = row_with(a), row_with(b)
            both = [row.made for row in rows if row and row.made and row.made[0] == 'picked']
            if len(both) == 2 and both[0][1] == both[1][1] and both[0][3] != both[1][3]:
                yes, no = (both[0], both[1]) if both[0][3] else (both[1], both[0])
                return self.picked(yes[1], list(yes[2]), list(no[2]))
            return None
        if name in ('and', 'andn') and (one or name == 'and' and two):
            mask, value = (one, b) if one else (two, a)
            made = self.picked(mask, value, nothing) if name == 'and' else self.picked(mask, nothing, value)
            made[0].of.made = 'picked', mask, tuple(value), name == 'and'
            return made
        return None

    def shift(self, i, kind, letter):
        lanes = BITS[letter]
        (a,) = self.sources(i, 1)
        count = i.operands[2].value if isinstance(i.operands[2], Number) else number_of(self.read(i.operands[2], 16)[:8])
        if count is None:
            raise Refused('shift by data')
        return self.shifted(a, {'ll': 'slli', 'rl': 'srli', 'ra': 'srai'}[kind], lanes, count)

    def shifted(self, a, name, lanes, count):
        size, many = lanes // 8, count // 8
        if count >= lanes:
            if name != 'srai':
                return [0] * len(a)
            count = lanes - 1
        if count == 0:
            return a
        if count % 8 == 0 and name != 'srai':
            blocks = [a[k:k + size] for k in range(0, len(a), size)]
            return [ref for block in blocks for ref in
                    ([0] * many + block[:size - many] if name == 'slli' else block[many:] + [0] * many)]
        base, many = self.multiple(a, lanes)
        made = ('times', lanes, base, many << count) if name == 'slli' else None
        return self.entry(f'{name}_epi{lanes}', [a], lanes, immediate=count, made=made)

    def shift_each(self, i, kind, letter):
        lanes, (a, b) = BITS[letter], self.sources(i)
        counts = [number_of(b[k:k + lanes // 8]) for k in range(0, len(b), lanes // 8)]
        if None in counts:
            raise Refused('shift by data')
        if len(set(counts)) == 1:
            return self.shifted(a, {'ll': 'slli', 'rl': 'srli', 'ra': 'srai'}[kind], lanes, counts[0])
        element, sign = ELEMENTS[lanes], '<<' if kind == 'll' else '>>'
        body = [f' dst.{element}[{k}] := a.{element}[{k}] {sign} {min(count, lanes - 1)}' for k, count in enumerate(counts)
                if count < lanes or kind == 'ra']
        row = self.writer.own('shifts', [self.writer.register(a)], 8 * len(a), lanes, '\n'.join(body),
                              [f'{"SI" if kind == "ra" else "UI"}{lanes}'])
        return row.parts()

    def widen(self, i, how, narrow, wide):
        fewer, more = BITS[narrow], BITS[wide]
        size = i.operands[0].size
        a = self.read(i.operands[1], size * fewer // more)
        if how == 'z':
            step = fewer // 8
            return [ref for k in range(0, len(a), step) for ref in a[k:k + step] + [0] * ((more - fewer) // 8)]
        return self.entry(f'cvtepi{fewer}_epi{more}', [padded(a, 16)], more, size=size)

    # Moves

    def whole_move(self, i, *_):
        target, source = i.operands
        return self.read(source, target.size if isinstance(target, Vector) else source.size)

    def low_move(self, i, letter):
        """movd and movq."""
        target, source = i.operands
        size = 4 if letter == 'd' else 8
        if isinstance(source, Register):
            return self.get(source)
        if isinstance(target, Register):
            size = target.size
        return self.read(source, size)[:size]

    def scalar_move(self, i, letter):
        """movss and movsd."""
        size = 4 if letter == 's' else 8
        if len(i.operands) == 3:
            a, b = (self.read(operand, 16) for operand in i.operands[1:])
            return b[:size] + a[size:]
        return self.read(i.operands[1], size)[:size]

    def half_move(self, i, which, _):
        """movlps and movhps, and the like."""
        if len(i.operands) == 2:
            a = self.read(i.operands[1], 16)
            return a[8:] if which == 'h' else a[:8]
        a, b = self.read(i.operands[1], 16), self.read(i.operands[2], 8)
        return a[:8] + b if which == 'h' else b + a[8:]

    def cross_move(self, i, name):
        a, b = (self.read(operand, 16) for operand in i.operands[1:])
        return b[8:] + a[8:] if name == 'hl' else a[:8] + b[:8]

    def twice_move(self, i, name):
        a = self.read(i.operands[1], i.operands[0].size if i.operands[0].size == 32 or name != 'd' else 8)
        if name == 'd':
            return [ref for k in range(0, max(len(a), 16), 16) for ref in a[k:k + 8] * 2]
        at = 4 if name == 'sh' else 0
        return [ref for k in range(0, len(a), 8) for ref in a[k + at:k + at + 4] * 2]

    def unpack(self, i, half, kind):
        a, b = self.sources(i)
        size = {'bw': 1, 'wd': 2, 'dq': 4, 'qdq': 8, 'ps': 4, 'pd': 8}[kind]
        at = 8 if half == 'h' else 0
        return [ref for block in range(0, len(a), 16) for k in range(block + at, block + at + 8, size)
                for ref in a[k:k + size] + b[k:k + size]]

    @staticmethod
    def four(refs, order, size):
        """Four lanes by the four pairs of bits of a number."""
        return [ref for k in range(4) for ref in refs[size * (order >> 2 * k & 3):size * (order >> 2 * k & 3) + size]]

    def shuffle_words(self, i, *_):
        (a,), order = self.sources(i, 1), self.immediate(i)
        made = []
        for k in range(0, len(a), 16):
            low, high = a[k:k + 8], a[k + 8:k + 16]
            made += self.four(low, order, 2) + high if 'l' in i.name[5:] else low + self.four(high, order, 2)
        return made

    def shuffle_dwords(self, i, *_):
        (a,), order = self.sources(i, 1), self.immediate(i)
        return [ref for k in range(0, len(a), 16) for ref in self.four(a[k:k + 16], order, 4)]

    def shuffle_bytes(self, i):
        a, b = self.sources(i)
        if not all(isinstance(ref, int) for ref in b):
            raise Refused('shuffle by data')
        return [0 if place & 128 else a[k - k % 16 + (place & 15)] for k, place in enumerate(b)]

    def align(self, i):
        (a, b), many = self.sources(i), self.immediate(i)
        return [ref for k in range(0, len(a), 16) for ref in (b[k:k + 16] + a[k:k + 16] + [0] * 16 + [0] * 256)[many:many + 16]]

    def permute_qwords(self, i, *_):
        (a,) = self.sources(i, 1)
        return self.four(a, self.immediate(i), 8)

    def permute_dwords(self, i, *_):
        order, a = self.sources(i)
        if not all(isinstance(ref, int) for ref in order):
            raise Refused('shuffle by data')
        return [ref for k in range(0, 32, 4) for ref in a[4 * (order[k] & 7):4 * (order[k] & 7) + 4]]

    def permute_halves(self, i, *_):
        (a, b), order = self.sources(i), self.immediate(i)
        both = a + b
        return [ref for at in (0, 4) for ref in
                ([0] * 16 if order >> at & 8 else both[16 * (order >> at & 3):16 * (order >> at & 3) + 16])]

    def broadcast(self, i, *_):
        many, size = BROADCAST[i.name], i.operands[0].size
        return self.read(i.operands[1], many)[:many] * (size // many)

    def insert_half(self, i, *_):
        a, b = self.read(i.operands[1], 32), self.read(i.operands[2], 16)
        return a[:16] + b if self.immediate(i) & 1 else b + a[16:]

    def extract_half(self, i, *_):
        a = self.read(i.operands[1], 32)
        return a[16:] if self.immediate(i) & 1 else a[:16]

    def insert_lane(self, i, letter):
        size, a = BITS[letter] // 8, self.read(i.operands[1], 16)
        at = self.immediate(i) % (16 // size) * size
        source = i.operands[2]
        value = self.get(source)[:size] if isinstance(source, Register) else self.read(source, size)
        return a[:at] + value + a[at + size:]

    def extract_lane(self, i, letter):
        size, a = BITS[letter] // 8, self.read(i.operands[1], 16)
        at = self.immediate(i) % (16 // size) * size
        return a[at:at + size]

    def insert_dword(self, i):
        order, a = self.immediate(i), self.read(i.operands[1], 16)
        b = self.read(i.operands[2], 16 if isinstance(i.operands[2], Vector) else 4)
        at, source = order >> 4 & 3, order >> 6 & 3 if isinstance(i.operands[2], Vector) else 0
        made = a[:4 * at] + b[4 * source:4 * source + 4] + a[4 * at + 4:]
        return [0 if order >> k // 4 & 1 else ref for k, ref in enumerate(made)]

    def blend(self, i, kind):
        (a, b), order = self.sources(i), self.immediate(i)
        size = {'pblendw': 2, 'pblendd': 4, 'blendps': 4, 'blendpd': 8}[kind]
        return [(b if order >> k // size % 8 & 1 else a)[k] for k in range(len(a))]

    def shift_bytes(self, i, way):
        (a,), many = self.sources(i, 1), min(self.immediate(i), 16)
        return [ref for k in range(0, len(a), 16) for ref in
                ([0] * many + a[k:k + 16 - many] if way == 'l' else a[k + many:k + 16] + [0] * many)]

    def shuffle_two(self, i, kind):
        (a, b), order = self.sources(i), self.immediate(i)
        made = []
        for k in range(0, len(a), 16):
            x, y = a[k:k + 16], b[k:k + 16]
            if kind == 's':
                made += self.four(x, order, 4)[:8] + self.four(y, order >> 4, 4)[:8]
            else:
                p, q = order >> k // 8 & 1, order >> k // 8 + 1 & 1
                made += x[8 * p:8 * p + 8] + y[8 * q:8 * q + 8]
        return made

    def sums_of_differences(self, i):
        a, b = self.sources(i)
        if len(a) == 32:
            raise Refused('unknown instruction')
        return self.entry('mpsadbw_epu8', [a, b], 16, immediate=self.immediate(i) & 7)

    PATTERNS = [(re.compile(pattern + '$'), act) for pattern, act in (
        (r'v(?:mov(?:dq[au]|[au]p[sd]|ntdqa?|ntp[sd])|lddqu)', whole_move), (r'vmov([dq])', low_move), (r'vmovs([sd])', scalar_move),
        (r'vmov([lh])(p[sd])', half_move), (r'vmov(hl|lh)ps', cross_move), (r'vmov(d|sh|sl)dup', twice_move),
        (r'vpabs([bwd])', absolute), (r'vpcmp(eq|gt)([bwdq])', compare), (r'v(pblendvb|blendvps|blendvpd)', blend_by_mask),
        (r'vp?(and|andn|or|xor)(p[sd])?', bitwise), (r'vps(ll|rl|ra)([wdq])', shift), (r'vps(ll|rl|ra)v([dq])', shift_each),
        (r'vpmov([sz])x([bwd])([wdq])', widen), (r'v(?:punpck|unpck)([lh])(bw|wd|dq|qdq|ps|pd)', unpack),
        (r'vpshuf[lh]w', shuffle_words), (r'vpshufd|vpermilps', shuffle_dwords), (r'vpshufb', shuffle_bytes), (r'vpalignr', align),
        (r'vpermq|vpermpd', permute_qwords), (r'vpermd|vpermps', permute_dwords), (r'vperm2[if]128', permute_halves),
        ('|'.join(BROADCAST), broadcast), (r'vinsert[if]128', insert_half), (r'vextract[if]128', extract_half),
        (r'vpinsr([bwdq])', insert_lane), (r'vpextr([bwdq])', extract_lane), (r'vinsertps', insert_dword),
        (r'v(pblendw|pblendd|blendps|blendpd)', blend),
        (r'vps([lr])ldq', shift_bytes),
        (r'vshufp([sd])', shuffle_two), (r'vmpsadbw', sums_of_differences))]
