"""Program texts as C with intrinsics, and what the tools beside this file share: headers of instruction files, the table of calls."""
import collections, os, re

from program_text import Fault, Text

LIBRARY = os.path.join(os.path.dirname(os.path.abspath(__file__)), '..', 'library')
REGISTERS = {128: '__m128i', 256: '__m256i', 512: '__m512i'}
FEATURES = {'SSE2': (), 'SSE3': ('sse3',), 'SSSE3': ('ssse3',), 'SSE4.1': ('sse4.1',), 'SSE4.2': ('sse4.2',), 'AVX': ('avx',),
            'AVX2': ('avx2',), 'AVX_VNNI': ('avx2', 'avxvnni'), 'AVX512F': ('avx512f',), 'AVX512BW': ('avx512f', 'avx512bw')}
ORDER = 'sse3 ssse3 sse4.1 sse4.2 avx avx2 avxvnni avx512f avx512bw avx512vl avx512vnni'.split()
# Words that a parameter or a function of C may not have here: keywords, types, macros, and functions that compilers know or that the
# headers of the C declare (glibc).
TAKEN = set('''a64l abort abs acos alignas aligned_alloc alignof alloca arc4random arc4random_buf arc4random_uniform asin asm at_quick_exit
atan atexit atof atoi atol atoll auto bcmp bcopy be16toh be32toh be64toh bool break bsearch bzero calloc case ceil char
clearenv const constexpr continue cos cosh default div do double drand48 drand48_r ecvt ecvt_r else enum erand48 erand48_r
exit exp explicit_bzero extern fabs false fcvt fcvt_r fd_mask fd_set ffs ffsl ffsll float floor fmax fmin fmod for fputc
fputs free frexp gamma gcvt getc getenv getloadavg gets getsubopt goto htobe16 htobe32 htobe64 htole16 htole32 htole64 hypot
i386 if index initstate initstate_r inline int isalnum isalpha isdigit islower isprint isspace isupper j0 j1 jn jrand48
jrand48_r l64a labs lcong48 lcong48_r ldexp ldiv le16toh le32toh le64toh lgamma linux llabs lldiv log logb long lrand48
lrand48_r main malloc max_align_t mblen mbstowcs mbtowc memccpy memchr memcmp memcpy memmove memset mkdtemp mkstemp mkstemps
mktemp modf mrand48 mrand48_r nrand48 nrand48_r nullptr offsetof on_exit posix_memalign pow printf pselect ptrdiff_t putc
putchar putenv puts qecvt qecvt_r qfcvt qfcvt_r qgcvt qsort quick_exit rand rand_r random random_r read realloc reallocarray
realpath register remainder rename restrict return rindex rint round rpmatch scalb scanf seed48 seed48_r select setenv
setstate setstate_r short signal signbit signed significand sin sinh size_t sizeof sprintf sqrt srand srand48 srand48_r
srandom srandom_r static static_assert stpcpy stpncpy strcasecmp strcasecmp_l strcat strchr strcmp strcoll strcoll_l strcpy
strcspn strdup strerror strerror_l strerror_r strlen strncasecmp strncasecmp_l strncat strncmp strncpy strndup strnlen
strpbrk strrchr strsep strsignal strspn strstr strtod strtof strtok strtok_r strtol strtold strtoll strtoq strtoul strtoull
strtouq struct strxfrm strxfrm_l switch system tan tanh thread_local time tolower toupper true trunc typedef typeof
typeof_unqual u_char u_int u_long u_short uint ulong union unix unsetenv unsigned ushort valloc void volatile wchar_t
wcstombs wctomb while write y0 y1 yn'''.split())


def number(word):
    """The number of a decimal or hexadecimal word, which may have leading zeros."""
    return int(word[2:], 16) if word.startswith('0x') else int(word)


class Entry:
    """The header of an entry: its parameters as (name, width), the range of its immediate or None, the width of its result."""

    def __init__(self, name, parameters, immediate, result, extension, cost):
        self.name, self.parameters, self.immediate = name, parameters, immediate
        self.result, self.extension, self.cost = result, extension, cost


def read_entries(path):
    """The headers of an instruction file that vegen accepts, by name, in the order of the file."""
    with open(path, encoding='latin-1') as file:
        words = re.sub(r'//[^\n]*', '', file.read()).split()
    try:
        return headers(words)
    except (IndexError, ValueError):
        raise Fault(f'{path}: no instruction file that vegen accepts') from None


def headers(words):
    """The headers of the entries of these words."""
    entries, at = {}, 0
    while at < len(words):
        if words[at] != 'INSTRUCTION':
            at += 1
            continue
        name, parameters, immediate = words[at + 1], [], None
        at += 2
        while words[at] != 'RESULT':
            if words[at] == 'PARAM':
                parameters.append((words[at + 1], number(words[at + 2])))
                at += 4
            else:
                immediate = (number(words[at + 2]), number(words[at + 4]))
                at += 5
        entries[name] = Entry(name, parameters, immediate, number(words[at + 2]), words[at + 5], number(words[at + 7]))
        at += 8
    return entries


LIBRARY_FILES = [os.path.join(LIBRARY, name) for name in ('avx512', 'avx2', 'sse')]


def library_entries():
    """All entries of the library; what stands in more than one file is the same there, but for fewer immediates in `avx512`."""
    entries = {}
    for path in LIBRARY_FILES:
        entries.update(read_entries(path))
    return entries


def read_calls(path=os.path.join(LIBRARY, 'calls')):
    """Of each entry that is not the intrinsic of its name: its words and its C."""
    calls = {}
    with open(path) as file:
        for line in file:
            found = re.match(r'(\w+)\(([^()]*)\) = (.*)$', line)
            if found:
                calls[found.group(1)] = ([w.strip() for w in found.group(2).split(',')], found.group(3))
    return calls


class Chain:
    """A register that inserts make of a constant: the constant's register and bytes, the width of the lanes, the operands of those that
    are inserted, and the registers between."""

    def __init__(self, base, data, width, operands=None, between=()):
        self.base, self.data, self.width, self.operands, self.between = base, data, width, operands or {}, between

    def longer(self, register, lane, operand):
        """The chain with an insert more into the register that it made so far."""
        between = (*self.between, register) if self.operands else ()
        return Chain(self.base, self.data, self.width, {**self.operands, lane: operand}, between)

    def lanes(self):
        """The lanes from the lowest: an operand, or the number of one that is left or a literal."""
        size = self.width // 8
        left = [int.from_bytes(self.data[at:at + size], 'little') for at in range(0, len(self.data), size)]
        some = [self.operands.get(lane, number) for lane, number in enumerate(left)]
        return [int(lane.split('i')[0]) if str(lane)[0].isdigit() and isinstance(lane, str) else lane for lane in some]


    def is_set(self):
        """Whether a `set` is better than the inserts: gcc puts a lane of 8 or 16 bits that is a constant other than zero together anew."""
        return self.width > 16 or not any(isinstance(lane, int) and lane for lane in self.lanes())


class Chains:
    """The inserts of a body that one intrinsic takes the place of: the chains by their last register, and what is not written then."""

    def __init__(self):
        self.ends, self.without, self.constants, self.uses = {}, set(), {}, collections.Counter()

    def count(self, row):
        self.uses.update(word for word in row.split(' ')[1:] if word.startswith('%v'))

    def see(self, row, width_of):
        """A row in its turn; `width_of` gives the width of an operand."""
        target, _, operation, *words = row.split(' ')
        if operation == 'const':
            self.constants[target] = bytes.fromhex(words[0])
        elif operation == 'insert':
            base, lane, width = words[0], int(words[1]), width_of(words[2])
            if base in self.ends and self.uses[base] == 1 and self.ends[base].width == width:
                self.ends[target] = self.ends.pop(base).longer(base, lane, words[2])
            elif base in self.constants:
                self.ends[target] = Chain(base, self.constants[base], width).longer(base, lane, words[2])

    def close(self):
        self.ends = {target: chain for target, chain in self.ends.items() if chain.is_set()}
        self.without = {register for chain in self.ends.values() for register in chain.between}
        starts = collections.Counter(chain.base for chain in self.ends.values())
        self.without |= {base for base, count in starts.items() if count == self.uses[base]}


class Function:
    """The C of one body, by the entries that it calls; what all bodies of a text share is in `whole`."""

    def __init__(self, whole, body):
        self.whole, self.features, self.helper = whole, whole.features, whole.helper
        self.lines, self.widths, self.scalars, self.used = [], {}, dict(whole.scalars), set()
        self.chains = Chains()
        self.each(body, self.chains.count)
        self.each(body, self.see)
        self.chains.close()
        self.each(body, self.line)

    def each(self, body, act):
        for at, row in enumerate(body.lines, body.first):
            try:
                act(row)
            except (KeyError, ValueError, IndexError, AttributeError, TypeError) as fault:
                raise Fault(f'line {at}: {row}: {fault!r}') from None

    def see(self, row):
        """What stands before the lines are written: the widths of the scalars, and the chains."""
        target, _, kind = row.split(' ')[0].partition(':')
        if target.startswith('%s'):
            self.scalars[target] = int(kind[1:])
        if target.startswith('%v'):
            self.chains.see(row, lambda word: int(word.split('i')[1]) if word[0].isdigit() else self.scalars[word])

    # Operands

    def operand(self, word, width=None):
        """C of an operand and its width."""
        if word.startswith('%'):
            self.used.add(word[1:])
            return word[1:], self.scalars[word]
        literal = re.match(r'(\d+)i(\d+)$', word)
        if literal:
            number, width = int(literal.group(1)), int(literal.group(2))
            return (f'UINT{width}_C({number})' if width > 16 else str(number)), width
        self.used.add(self.whole.names[word])
        return self.whole.names[word], self.scalars[word]

    def register(self, word):
        self.used.add(word[1:])
        return word[1:], self.widths[word]

    def place(self, word):
        name, sign, offset = re.match(r'(\w+)([+-])(\d+)$', word).groups()
        self.used.add(self.whole.names[name])
        return f'{self.whole.names[name]} {sign} {offset}'

    def stored(self, word):
        """A place to which something is stored."""
        self.whole.stored.add(re.match(r'\w+', word).group(0))
        return self.place(word)

    # Lines

    def put(self, text):
        self.lines.append(text)

    def line(self, row):
        words = row.split(' ')
        if words[0] == 'store':
            value, width = self.operand(words[2])
            name = self.helper(f'vegen_store{width}', f'static inline void vegen_store{width}(unsigned char *p, uint{width}_t x)\n'
                               '{\n    memcpy(p, &x, sizeof x);\n}')
            return self.put(f'{name}({self.stored(words[1])}, {value});')
        if words[0] == 'vstore':
            return self.vstore(int(words[1]), self.stored(words[2]), self.register(words[3])[0])
        target, kind = (words[0].split(':') + [None])[:2]
        if target in self.chains.without:
            return None
        if target.startswith('%v'):
            c, width = self.set(self.chains.ends[target]) if target in self.chains.ends else self.vector(words[2], words[3:])
            self.widths[target] = width
            return self.put(f'const {REGISTERS[width]} {target[1:]} = {c};')
        width = int(kind[1:])
        c = self.extract(words, width) if words[2] == 'extract' else self.scalar(words[2], words[3:], width)
        self.scalars[target] = width
        self.put(f'const {"int" if width == 1 else f"uint{width}_t"} {target[1:]} = {c};')

    def scalar(self, operation, words, width):
        """C of a line that gives an integer; each result is a number of its width."""
        if operation == 'load':
            name = self.helper(f'vegen_load{width}', f'static inline uint{width}_t vegen_load{width}(const unsigned char *p)\n'
                               f'{{\n    uint{width}_t x;\n    memcpy(&x, p, sizeof x);\n    return x;\n}}')
            return f'{name}({self.place(words[0])})'
        if operation in ('shl', 'lshr', 'ashr'):
            value, n = self.operand(words[0])[0], words[1]
            if operation == 'ashr':
                return f'(uint{width}_t)((int{width}_t){value} >> {n})'
            return f'(uint{width}_t)({value} {"<<" if operation == "shl" else ">>"} {n})'
        if operation in ('sext', 'zext', 'trunc'):
            value, narrow = self.operand(words[0])
            return f'(uint{width}_t)(int{width}_t)(int{narrow}_t){value}' if operation == 'sext' else f'(uint{width}_t){value}'
        if operation == 'select':
            condition = self.operand(words[0])[0]
            return f'{condition} ? {self.operand(words[1])[0]} : {self.operand(words[2])[0]}'
        (a, of), (b, _) = self.operand(words[0]), self.operand(words[1])
        if operation in ('eq', 'slt', 'ult', 'smin', 'smax', 'umin', 'umax'):
            return f'{self.comparison(operation, of)}({a}, {b})'
        sign = {'add': '+', 'sub': '-', 'mul': '*', 'and': '&', 'or': '|', 'xor': '^'}[operation]
        wide = '(uint32_t)' if operation == 'mul' and width == 16 else f'(uint{width}_t)' if operation == 'xor' and a.isdigit() else ''
        return f'(uint{width}_t)({wide}{a} {sign} {b})'

    def comparison(self, operation, width):
        """The helper of a comparison, a least or a greatest; a function, so that no compiler warns of two equal operands."""
        kind = f'{"int" if operation[0] == "s" else "uint"}{width}_t'
        sign = {'eq': '==', 'lt': '<', 'in': '<', 'ax': '>'}[operation[-2:]]
        test = f'({kind})a {sign} ({kind})b'
        result, body = ('int', test) if operation[-2:] in ('eq', 'lt') else (f'uint{width}_t', test + ' ? a : b')
        name = f'vegen_{operation}{width}'
        return self.helper(name, f'static inline {result} {name}(uint{width}_t a, uint{width}_t b)\n{{\n    return {body};\n}}')

    def extract(self, words, width):
        register, of = self.register(words[3])
        lane = int(words[4])
        if of == 512:
            self.features |= {'sse4.1', 'avx512f'}
            block, lane = divmod(lane, 128 // width)
            return f'(uint{width}_t)_mm_extract_epi{width}(_mm512_extracti32x4_epi32({register}, {block}), {lane})'
        self.features |= {'avx2'} if of == 256 else {'sse4.1'} if width != 16 else set()
        return f'(uint{width}_t)_mm{"256" if of == 256 else ""}_extract_epi{width}({register}, {lane})'

    def insert(self, register, of, lane, value, width):
        kind = 'long long' if width == 64 else 'int'
        if of == 512:
            self.features |= {'sse4.1', 'avx512f'}
            block, lane = divmod(lane, 128 // width)
            inner = f'_mm_insert_epi{width}(_mm512_extracti32x4_epi32({register}, {block}), ({kind}){value}, {lane})'
            return f'_mm512_inserti32x4({register}, {inner}, {block})'
        self.features |= {'avx2'} if of == 256 else {'sse4.1'} if width != 16 else set()
        return f'_mm{"256" if of == 256 else ""}_insert_epi{width}({register}, ({kind}){value}, {lane})'

    def set(self, chain):
        """C of a register that a chain of inserts makes, and its width."""
        lanes, bits = chain.lanes(), 8 * len(chain.data)
        self.features |= {256: {'avx'}, 512: {'avx512f'}}.get(bits, set())
        name = f'_mm{"" if bits == 128 else bits}_set{{}}_epi{chain.width}{"x" if chain.width == 64 and bits < 512 else ""}'
        c = [self.operand(lane)[0] if isinstance(lane, str) else literal(lane, chain.width) for lane in reversed(lanes)]
        if len(set(lanes)) == 1:
            return f'{name.format("1")}({c[0]})', bits
        return f'{name.format("")}({", ".join(c)})', bits

    def vector(self, operation, words):
        """C of a line that gives a register, and the register's width."""
        if operation == 'vload':
            return self.vload(int(words[0]), self.place(words[1]))
        if operation == 'const':
            width = len(words[0]) * 4
            self.features |= {256: {'avx'}, 512: {'avx512f'}}.get(width, set())
            return constant(bytes.fromhex(words[0])), width
        if operation == 'insert':
            register, of = self.register(words[0])
            value, width = self.operand(words[2])
            return self.insert(register, of, int(words[1]), value, width), of
        entry = self.whole.entries[words[0]]
        immediate = words[-1] if entry.immediate else None
        registers = [self.register(word)[0] for word in words[1:1 + len(entry.parameters)]]
        self.features |= set(features_of(entry, self.whole.avx512vnni))
        return self.call(entry, registers, immediate), entry.result

    def call(self, entry, registers, immediate):
        names, c = self.whole.calls.get(entry.name, ([name for name, _ in entry.parameters] + ['imm8'], None))
        arguments = registers + ([immediate] if immediate else [])
        if c is None:
            c = f'{entry.name}({", ".join(names[:len(arguments)])})'
        if self.whole.avx512vnni or entry.extension != 'AVX_VNNI':
            c = c.replace('_avx_epi32(', '_epi32(')
        if 'return ' not in c:
            return re.sub(r'\b\w+\b', lambda match: dict(zip(names, arguments)).get(match.group(0), match.group(0)), c)
        parameters = ', '.join(f'{REGISTERS[width]} {name}' for name, (_, width) in zip(names, entry.parameters))
        body = '\n'.join('    ' + statement.strip() + ';' for statement in c.split(';') if statement.strip())
        self.helper(entry.name, f'static inline {REGISTERS[entry.result]} {entry.name}({parameters})\n{{\n{body}\n}}')
        return f'{entry.name}({", ".join(arguments)})'

    def vload(self, size, place):
        if size == 4:
            name = self.helper('vegen_vload4', 'static inline __m128i vegen_vload4(const unsigned char *p)\n'
                               '{\n    int x;\n    memcpy(&x, p, sizeof x);\n    return _mm_cvtsi32_si128(x);\n}')
            return f'{name}({place})', 128
        self.features |= {32: {'avx'}, 64: {'avx512f'}}.get(size, set())
        return {8: f'_mm_loadl_epi64((const __m128i *)({place}))', 16: f'_mm_loadu_si128((const __m128i *)({place}))',
                32: f'_mm256_loadu_si256((const __m256i *)({place}))', 64: f'_mm512_loadu_si512((const void *)({place}))'}[size], \
            max(128, size * 8)

    def vstore(self, size, place, register):
        if size == 4:
            name = self.helper('vegen_vstore4', 'static inline void vegen_vstore4(unsigned char *p, __m128i v)\n'
                               '{\n    const int x = _mm_cvtsi128_si32(v);\n    memcpy(p, &x, sizeof x);\n}')
            return self.put(f'{name}({place}, {register});')
        self.features |= {32: {'avx'}, 64: {'avx512f'}}.get(size, set())
        self.put({8: f'_mm_storel_epi64((__m128i *)({place}), {register});', 16: f'_mm_storeu_si128((__m128i *)({place}), {register});',
                  32: f'_mm256_storeu_si256((__m256i *)({place}), {register});',
                  64: f'_mm512_storeu_si512((void *)({place}), {register});'}[size])


# What a text of each kind is called.
KINDS = {'program': 'program', 'guarded': 'guarded text', 'looped': 'looped text', 'guardedloop': 'guarded loop'}


class Translation:
    """The C of a text that `vegen run` accepts: plain, guarded, looped or a guarded loop. With the kernel of the text (layouts.Kernel) pointers that it
    says are noalias are `restrict`; with avx512vnni its VNNI instructions are those of AVX-512VL."""

    def __init__(self, text, entries, calls, name=None, kernel=None, avx512vnni=False):
        self.source, self.entries, self.calls, self.avx512vnni = Text(text), entries, calls, avx512vnni
        self.features, self.helpers, self.scalars, self.names, self.stored = set(), {}, {}, {}, set()
        self.program, self.kind = self.source.name, self.source.kind
        self.name = c_name(name or self.program, ())
        self.alone = {word for word, _, alone in kernel.parameters if alone} if kernel else set()
        self.signature, parts = [], [f'{self.name}_{part}' for part in self.source.bodies]
        for word, kind in self.source.parameters:
            self.names[word] = c = c_name(word, [*self.names.values(), *parts])
            self.signature.append((kind, word, c))
            if kind != 'ptr':
                self.scalars[word] = int(kind[1:])
        self.functions = {part: Function(self, body) for part, body in self.source.bodies.items() if self.has(part)}
        self.apart = {word for word, kind in self.source.parameters if kind == 'ptr'} if kernel and self.source.checks else set()

    def has(self, part):
        """Whether a body can come to be run: no other side is where nothing is checked, no rest where a block is one turn."""
        return self.source.checks if part == 'else' else self.source.block > 1 if part == 'rest' else True

    def helper(self, name, text):
        """A small function that stands above the program's."""
        self.helpers.setdefault(name, text)
        return name

    def target(self):
        some = sorted(self.features, key=ORDER.index)
        return f'__attribute__((target("{",".join(some)}")))\n' if some else ''

    def parameters(self, alone, restrict='restrict'):
        """The parameters as C declares them; `alone` are the pointers that share no byte with another that is stored through."""
        def declared(kind, word, c):
            if kind != 'ptr':
                return f'uint{kind[1:]}_t {c}'
            return f'{"" if word in self.stored else "const "}unsigned char *{restrict + " " if word in alone else ""}{c}'
        return ', '.join(declared(*parameter) for parameter in self.signature) or 'void'

    def of_body(self, head, lines, function):
        """A function with the lines of a body, and what is not used in it."""
        defined = re.findall(r'^const [^=]* (\w+) =', '\n'.join(lines), re.M)
        unused = [c for _, _, c in self.signature if c not in function.used] + [c for c in defined if c not in function.used]
        return f'{self.target()}{head}\n{{\n' + ''.join(f'    {l}\n' for l in [*lines, *(f'(void){c};' for c in unused)]) + '}\n'

    def part(self, name):
        """The function of one body of a text that has more than one."""
        alone = self.alone | (self.apart if name == 'then' else set())
        head = f'static inline void {self.name}_{name}({self.parameters(alone)})'
        return self.of_body(head, self.functions[name].lines, self.functions[name]) + '\n'

    def moved(self, word, turn):
        """A parameter; a pointer is moved on by so many turns."""
        c, step = self.names[word], self.source.steps.get(word) if turn else None
        return c if step is None else f'{c} + {turn}' if step == 1 else f'{c} + {step} * {turn}'

    def call_of(self, part, turn=None):
        """The call of a body's function, its pointers moved on by so many turns."""
        return f'{self.name}_{part}({", ".join(self.moved(word, turn) for _, word, _ in self.signature)});'

    def chosen(self, turn=None):
        """What is done once, or for each block: the body, or that side of it which the checks choose at its places."""
        if 'then' not in self.functions:
            return [self.call_of('block', turn)]
        if 'else' not in self.functions:
            return [self.call_of('then', turn)]
        tests = []
        for p, n, size, q, m, other in self.source.checks:
            p, q = self.moved(p, turn), self.moved(q, turn)
            tests.append(f'vegen_after({p}, {q}, {n + size - m}) || vegen_after({q}, {p}, {m + other - n})')
        tests = f'({") && (".join(tests)})' if len(tests) > 1 else tests[0]
        self.helper('vegen_after', AFTER)
        return [f'if ({tests})', '    ' + self.call_of('then', turn), 'else', '    ' + self.call_of('else', turn)]

    def acts(self):
        """The lines of the function of a text with more than one body."""
        if not self.source.times:
            return self.chosen()
        n, u, turn = self.names[self.source.times], self.source.block, 'vegen_turn'
        lines = [f'uint64_t {turn} = 0;', f'for (; {n} - {turn} >= {u}; {turn} += {u})', *('    ' + line for line in self.chosen(turn))]
        return lines + ([f'for (; {turn} < {n}; {turn}++)', '    ' + self.call_of('rest', turn)] if 'rest' in self.functions else [])

    def function(self):
        """The helpers and the function, each with the processor's features that it needs."""
        head = f'void {self.name}({self.parameters(self.alone)})'
        if self.kind == 'program':
            made = self.of_body(head, self.functions['body'].lines, self.functions['body'])
        else:
            lines = self.acts()
            made = ''.join(self.part(name) for name in self.functions)
            made += f'{self.target()}{head}\n{{\n' + ''.join(f'    {l}\n' for l in lines) + '}\n'
        above = ''.join(self.target() + text + '\n\n' for _, text in sorted(self.helpers.items()))
        return above, made

    def remark(self):
        costs = ', '.join(f'{part}: {body.end}' if self.kind != 'program' else body.end for part, body in self.source.bodies.items())
        return f'/* The {KINDS[self.kind]} `{self.program}` ({costs}), made by tools/to-c. */\n'

    def text(self):
        above, function = self.function()
        return f'{self.remark()}{INCLUDES}\n{above}{function}'

    def header(self):
        """A header file for C and C++ that declares the function."""
        guard, some = re.sub(r'\W', '_', self.name.upper()) + '_H', sorted(self.features, key=ORDER.index)
        asks = ''.join(f'/* {line} */\n' for line in [
            *([f'The processor has to have {", ".join(some)}.'] if some else []),
            *(['What is stored through one pointer is not accessed through another that is restrict, or the other way round.']
              if self.alone else [])])
        return (f'{self.remark()}#ifndef {guard}\n#define {guard}\n\n#include <stdint.h>\n\n#ifdef __cplusplus\nextern "C" {{\n#endif\n\n'
                f'{asks}void {self.name}({self.parameters(self.alone, "__restrict")});\n\n#ifdef __cplusplus\n}}\n#endif\n\n#endif\n')


# Whether q lies so many bytes after p at the least, as whole numbers.
AFTER = '''static inline int vegen_after(const unsigned char *p, const unsigned char *q, int64_t least)
{
    const uintptr_t a = (uintptr_t)p, b = (uintptr_t)q;
    return b >= a ? least <= 0 || b - a >= (uint64_t)least : least <= 0 && a - b <= (uint64_t)-least;
}'''


INCLUDES = '#include <immintrin.h>\n#include <stdint.h>\n#include <string.h>\n'


def processor():
    """The name of this processor, and what it has."""
    with open('/proc/cpuinfo') as file:
        text = file.read()
    return re.search(r'model name\s*: (.*)', text).group(1), set(re.search(r'flags\s*: (.*)', text).group(1).split())


def only_avx512vnni(has):
    """Whether a processor that has these has VNNI instructions of 128 and 256 bits in the form of AVX-512VL alone."""
    return 'avx_vnni' not in has and {'avx512_vnni', 'avx512vl'} <= has


def is_here(features, has):
    """Whether a processor that has these has all features."""
    named = {'sse3': 'pni', 'sse4.1': 'sse4_1', 'sse4.2': 'sse4_2', 'avxvnni': 'avx_vnni', 'avx512vnni': 'avx512_vnni'}
    return all(named.get(f, f) in has for f in features)


def features_of(entry, avx512vnni=False):
    """What the processor has to have for an entry, in the words of gcc and clang; with the VNNI instructions of AVX-512VL, where asked."""
    some = FEATURES[entry.extension]
    if avx512vnni and 'avxvnni' in some:
        return ('avx2', 'avx512f', 'avx512vl', 'avx512vnni')
    if entry.extension.startswith('AVX512'):
        widths = [entry.result] + [width for _, width in entry.parameters]
        if min(widths) < 512 and max(widths) < 512:
            some += ('avx512vl',)
        if re.match(r'_mm(256|512)?_dp(bus|wss)ds?_', entry.name):
            some += ('avx512vnni',)
    return some


def c_name(name, others):
    """The name as C may have it: one that C has already, or that the tool uses, gets `_` after it."""
    if name in TAKEN or re.match(r'(_|vegen_|seq_|[sv]\d+$|[A-Z0-9_]+$|\w+_t$)', name) and not re.match(r'[A-Z]$', name):
        name += '_'
    while name in others:
        name += '_'
    return name


def literal(number, width):
    """C of a number of so many bits as a lane."""
    number -= (number >> width - 1) << width
    if width == 64:
        return f'(long long)UINT64_C({number % 2**64})'
    return '-2147483647 - 1' if number == -2**31 else str(number)


def constant(data):
    """C of a register with these bytes, the lowest first."""
    mark = {16: '', 32: '256', 64: '512'}[len(data)]
    if not any(data):
        return f'_mm{mark}_setzero_si{len(data) * 8}()'
    for size in (1, 2, 4, 8):
        if data == data[:size] * (len(data) // size):
            number = literal(int.from_bytes(data[:size], 'little'), 8 * size)
            return f'_mm{mark}_set1_epi{8 * size}{"x" if size == 8 and mark != "512" else ""}({number})'
    lanes = [literal(int.from_bytes(data[i:i + 4], 'little'), 32) for i in range(0, len(data), 4)]
    return f'_mm{mark}_setr_epi32({", ".join(lanes)})'
