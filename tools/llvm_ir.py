"""LLVM's textual IR, of LLVM 14 (typed pointers) and later (opaque ones): instructions, functions and modules.

The form is that of the LLVM Language Reference. A module is cut into its parts line by line; an instruction is read word by word when
a function of it is asked for, and one that is not known here stands with its opcode alone. What is no IR is a `Malformed`, by its line.
"""
import re

from llvm_words import (Aggregate, Array, BINARY, Bytes, CASTS, DEEPEST, Expression, FLOATS, Float, Function, Global, Instruction, Integer,
                        Local, Malformed, Named, Number, Other, Parameter, Pointer, Struct, Undefined, Unread, Variable,
                        Vector, Words, Zero, is_type, unquoted)

OUTSIDE = r'\s*(;|target |declare |attributes |\$|module asm|uselistorder|\^|source_filename|\}|#dbg)'


class Reader:
    """Reads the instruction of one line."""

    def __init__(self, words):
        self.words = words

    def instruction(self):
        words, name = self.words, None
        if words.kind() == 'local' and words.peek(1) == '=':
            name = unquoted(words.take()[1:])
            words.take()
        while words.peek() in ('tail', 'musttail', 'notail'):
            words.take()
        if words.kind() != 'word':
            raise words.fault(f'no instruction: {words.peek()[:40]!r}')
        made = Instruction(name, words.take(), words.line)
        form = 'binary' if made.op in BINARY else 'cast' if made.op in CASTS else made.op
        read = getattr(self, 'read_' + form, None)
        if read:
            made.flags = words.flags()
            made.parts = read()
            self.end(made)
        else:
            self.rest(made)
        return made

    def rest(self, made):
        """Takes what stands after an opcode that is not known, but for its place of the source."""
        while self.words.peek():
            if self.words.take() == '!dbg':
                made.location = self.words.peek()

    def end(self, made):
        """What may stand after an instruction: an alignment, metadata, groups of attributes; of the metadata the place is kept."""
        words = self.words
        if made.op == 'call':
            words.attributes()
            if words.found('['):
                while not words.found(']'):
                    words.take()
        while words.peek():
            words.want(',')
            if words.found('align'):
                words.number()
            elif words.kind() == 'metadata':
                kind = words.take()
                of = words.metadata()
                if kind == '!dbg':
                    made.location = of
            elif words.peek() == 'addrspace':
                words.take()
                words.parentheses()
            else:
                raise words.fault(f'{words.peek()[:40]!r} may not stand after {made.op!r}')

    def pair(self):
        of, first = self.words.typed()
        self.words.want(',')
        return of, first, self.words.value()

    def read_binary(self):
        of, first, second = self.pair()
        return dict(type=of, first=first, second=second)

    def read_icmp(self):
        order = self.words.take()
        if order not in ('eq', 'ne', 'ugt', 'uge', 'ult', 'ule', 'sgt', 'sge', 'slt', 'sle'):
            raise self.words.fault(f'no comparison: {order[:40]!r}')
        return dict(order=order, **self.read_binary())

    def read_fcmp(self):
        self.words.take()
        return self.read_binary()

    def read_cast(self):
        of, value = self.words.typed()
        self.words.want('to')
        return dict(type=of, value=value, to=self.words.type())

    def read_freeze(self):
        of, value = self.words.typed()
        return dict(type=of, value=value)

    read_fneg = read_freeze

    def special(self):
        """The words `atomic` and `volatile`, where they stand."""
        words = self.words
        return [word for word in ('atomic', 'volatile') if words.found(word)]

    def read_load(self):
        special, of = self.special(), self.words.type()
        self.words.want(',')
        place = self.words.typed()
        self.ordering(special)
        return dict(type=of, place=place, special=special)

    def read_store(self):
        special = self.special()
        value = self.words.typed()
        self.words.want(',')
        place = self.words.typed()
        self.ordering(special)
        return dict(value=value, place=place, special=special)

    def ordering(self, special):
        if 'atomic' in special:
            if self.words.found('syncscope'):
                self.words.parentheses()
            self.words.take()

    def read_getelementptr(self):
        over, operands = self.words.type(), []
        while self.words.peek() == ',' and self.words.kind(1) != 'metadata':
            self.words.take()
            self.words.flags()
            operands.append(self.words.typed())
        if not operands:
            raise self.words.fault('getelementptr of no pointer')
        return dict(over=over, operands=operands)

    def read_select(self):
        operands = [self.words.typed()]
        for _ in range(2):
            self.words.want(',')
            operands.append(self.words.typed())
        return dict(operands=operands)

    def read_phi(self):
        of, ways = self.words.type(), []
        while not ways or (self.words.peek() == ',' and self.words.peek(1) == '['):
            if ways:
                self.words.want(',')
            self.words.want('[')
            value = self.words.value()
            self.words.want(',')
            ways.append((value, self.label()))
            self.words.want(']')
        return dict(type=of, ways=ways)

    def label(self):
        if self.words.kind() != 'local':
            raise self.words.fault(f'no label: {self.words.peek()[:40]!r}')
        return unquoted(self.words.take()[1:])

    def read_br(self):
        if self.words.found('label'):
            return dict(condition=None, to=[self.label()])
        condition, to = self.words.typed(), []
        for _ in range(2):
            self.words.want(',')
            self.words.want('label')
            to.append(self.label())
        return dict(condition=condition, to=to)

    def read_ret(self):
        if self.words.found('void'):
            return dict(value=None)
        return dict(value=self.words.typed())

    def read_unreachable(self):
        return {}

    def read_alloca(self):
        while self.words.peek() in ('inalloca', 'swifterror'):
            self.words.take()
        of, count = self.words.type(), None
        if self.words.peek() == ',' and is_type(self.words.peek(1)):
            self.words.take()
            count = self.words.typed()
        return dict(type=of, count=count)

    def read_call(self):
        words = self.words
        words.attributes()
        words.type()
        if words.peek() == 'asm':
            while words.peek() != '(':
                words.take()
            words.parentheses()
            return dict(callee=Unread('asm'), arguments=[])
        callee, arguments = words.value(), []
        words.want('(')
        while not words.found(')'):
            if arguments:
                words.want(',')
            arguments.append(words.typed())
        return dict(callee=callee, arguments=arguments)


class Module:
    """A file of IR: the types, the variables and the functions that it has, and the places of the source that it names."""

    def __init__(self, text):
        self.types, self.variables, self.functions, self.notes = {}, {}, {}, {}
        self.sizes, self.source, self.little = {}, None, True
        self.lines = text.split('\n')
        self.bits = {'p': (64, 64), 'i64': (64, 32), 'i128': (128, 64), 'f80': (128, 128)}
        at = 0
        while at < len(self.lines):
            at = self.top(at)

    def top(self, at):
        """Takes what begins at a line, and gives the line after it."""
        line = self.lines[at]
        if line.startswith('define'):
            return self.take_function(at)
        if line.startswith('!'):
            name, _, text = line.partition(' = ')
            self.notes[name] = text
        elif line.startswith('%'):
            found = re.match(r'(%(?:"[^"]*"|[\w.$-]+)) = type (.*)$', line)
            if not found:
                raise Malformed(at + 1, 'no definition of a type')
            self.types[found.group(1)] = (found.group(2), at + 1)
        elif line.startswith('@'):
            found = re.match(r'@("[^"]*"|[\w.$-]+) = (.*)$', line)
            if not found:
                raise Malformed(at + 1, 'no definition of a variable')
            self.variables[unquoted(found.group(1))] = (found.group(2), at + 1)
        elif line.startswith('target datalayout'):
            self.take_layout(line)
        elif line.startswith('source_filename'):
            found = re.search(r'"([^"]*)"', line)
            self.source = found and unquoted(found.group(0))
        elif line.strip() and not re.match(OUTSIDE, line):
            raise Malformed(at + 1, f'nothing of a module: {line.strip()[:40]!r}')
        return at + 1

    def take_layout(self, line):
        for part in (re.search(r'"([^"]*)"', line) or [None, ''])[1].split('-'):
            found = re.fullmatch(r'(p|i\d{1,4}|f\d{1,4})(?::(\d{1,4}))?(?::(\d{1,4}))?(:\d+)*', part)
            if part == 'E':
                self.little = False
            elif found and found.group(1) == 'p':
                self.bits['p'] = (int(found.group(2) or 64), int(found.group(3) or 64))
            elif found:
                self.bits[found.group(1)] = (int(found.group(1)[1:]), int(found.group(2) or 8))

    def take_function(self, at):
        found = re.search(r'@("[^"]*"|[\w.$-]+)\s*\(', self.lines[at])
        if not found:
            raise Malformed(at + 1, 'a function without a name')
        end = at + 1
        while end < len(self.lines) and self.lines[end] != '}':
            if self.lines[end].startswith('define'):
                raise Malformed(end + 1, 'a function begins in a function')
            end += 1
        if end == len(self.lines):
            raise Malformed(at + 1, 'a function without an end')
        self.functions[unquoted(found.group(1))] = (at, end)
        return end + 1

    # Functions

    def function(self, name):
        """The function of a name, read whole."""
        start, end = self.functions[name]
        words = Words(self.lines[start], start + 1)
        words.want('define')
        attributes = words.attributes()
        result = words.type()
        words.take()
        parameters, variadic = self.parameters(words)
        note = re.search(r'!dbg (!\d+)', self.lines[start])
        blocks = self.blocks(start + 1, end, parameters)
        return Function(name, result, attributes, parameters, start + 1, variadic, blocks, note and note.group(1))

    def parameters(self, words):
        parameters, unnamed, variadic = [], 0, False
        words.want('(')
        while not words.found(')'):
            if parameters or variadic:
                words.want(',')
            if words.found('...'):
                variadic = True
                continue
            of = words.type()
            attributes = words.attributes()
            if words.kind() == 'local':
                name = unquoted(words.take()[1:])
            else:
                name = str(unnamed)
            unnamed += name == str(unnamed)
            parameters.append(Parameter(name, of, attributes))
        return parameters, variadic

    def blocks(self, start, end, parameters):
        """The instructions of each block, by the block's label, the first block first."""
        unnamed = sum(p.name.isdigit() for p in parameters)
        blocks, label = {}, str(unnamed)
        current, held, since = blocks.setdefault(label, []), '', 0
        for at in range(start, end):
            line = self.lines[at]
            found = re.match(r'("[^"]*"|[\w.$-]+):', line)
            if found and not held:
                label = unquoted(found.group(1))
                if not current and len(blocks) == 1:
                    blocks.clear()
                if label in blocks:
                    raise Malformed(at + 1, f'a second block {label!r}')
                current = blocks.setdefault(label, [])
                continue
            if not held and (not line.strip() or line.lstrip().startswith((';', '#dbg'))):
                continue
            held, since = (held + ' ' + line, since) if held else (line, at)
            if is_whole(held):
                current.append(Reader(Words(held, since + 1)).instruction())
                held = ''
        if held:
            raise Malformed(since + 1, 'an instruction without an end')
        return blocks

    # Places of the source

    def place(self, note, calls=0):
        """The file and the line that a note of a place names: of code that was put in, the place in the function itself."""
        text = self.notes.get(note, '') if note else ''
        found = re.match(r'(?:distinct )?!DILocation\(line: (\d+)', text)
        if not found:
            return None
        inlined = re.search(r'inlinedAt: (!\d+)', text)
        if inlined and calls < 100:
            return self.place(inlined.group(1), calls + 1) or None
        scope = re.search(r'scope: (!\d+)', text)
        return self.file_of(scope.group(1) if scope else None), int(found.group(1))

    def function_place(self, note):
        """The file and the line where a function begins, by its note."""
        found = re.match(r'distinct !DISubprogram\(.*?\bline: (\d+)', self.notes.get(note, '') if note else '')
        return (self.file_of(note), int(found.group(1))) if found else None

    def file_of(self, scope):
        for _ in range(100):
            text = self.notes.get(scope, '')
            found = re.search(r'file: (!\d+)', text)
            if found:
                name = re.search(r'filename: "([^"]*)"', self.notes.get(found.group(1), ''))
                return name.group(1) if name else self.source
            above = re.search(r'scope: (!\d+)', text)
            scope = above.group(1) if above else None
        return self.source

    # Variables

    def variable(self, name):
        """The type and the value of a constant that no other file may change, or None."""
        text, line = self.variables.get(name, (None, 0))
        if text is None:
            return None
        words = Words(text, line)
        seen = set()
        while words.kind() == 'word' and words.peek() not in ('constant', 'global'):
            seen.add(words.take())
            if words.peek() == '(':
                words.parentheses()
        if not words.found('constant') or seen & {'external', 'weak', 'linkonce', 'common', 'extern_weak', 'thread_local',
                                                  'externally_initialized', 'appending'}:
            return None
        return Variable(words.type(), words.value())

    # Sizes

    def known(self, of, depth=0):
        """The type that a name stands for."""
        if not isinstance(of, Named):
            return of
        text, line = self.types.get(of.name, (None, 0))
        if text is None or depth > DEEPEST:
            raise Malformed(line, f'a type that is not known: {of.name[:40]}')
        return self.known(Words(text, line).type(), depth + 1)

    def size(self, of, depth=0):
        """The bytes from one element of a type to the next, and its alignment; None where it has none."""
        if isinstance(of, Named):
            if of.name not in self.sizes:
                self.sizes[of.name] = self.size(self.known(of), depth + 1)
            return self.sizes[of.name]
        if depth > DEEPEST:
            raise Malformed(1, 'types are nested too deep')
        if isinstance(of, Integer):
            align = self.integer_alignment(of.bits)
            return -(-((of.bits + 7) // 8) // align) * align, align
        if isinstance(of, Pointer):
            return self.bits['p'][0] // 8, self.bits['p'][1] // 8
        if isinstance(of, Float):
            size = FLOATS[of.name]
            if of.name == 'x86_fp80' and self.bits['p'][0] == 32:
                return 12, 4
            return size, self.bits.get(f'f{8 * size}', (0, 8 * size))[1] // 8
        if isinstance(of, Array):
            size, align = self.size(of.of, depth + 1)
            return of.count * size, align
        if isinstance(of, Vector):
            return self.vector_size(of)
        if isinstance(of, Struct):
            _, end, align = self.fields(of, depth)
            return end, align
        raise Malformed(1, f'a type without a size: {of}')

    def vector_size(self, of):
        """The size of a vector, which is its alignment: the least power of two that holds its lanes."""
        inner = self.known(of.of)
        bits = of.count * (inner.bits if isinstance(inner, Integer) else 8 * self.size(inner)[0])
        size = 1 << max(0, (max(1, (bits + 7) // 8) - 1).bit_length())
        return size, size

    def integer_alignment(self, bits):
        """The alignment of an integer in bytes: that of the next wider one that the layout names, or of the widest."""
        wide = 8
        while wide < bits and wide < 1 << 12:
            wide *= 2
        named = sorted((int(k[1:]), a) for k, (_, a) in self.bits.items() if k[0] == 'i')
        known = dict(named) | {k: v for k, v in ((8, 8), (16, 16), (32, 32)) if f'i{k}' not in self.bits}
        best = [known[k] for k in sorted(known) if k >= bits]
        return max(1, (best[0] if best else known[max(known)]) // 8)

    def fields(self, of, depth=0):
        """Where each field of a structure begins, where the last one ends with its padding, and the alignment."""
        starts, end, most = [], 0, 1
        for part in of.fields:
            size, align = self.size(part, depth + 1)
            align = 1 if of.packed else align
            end = -(-end // align) * align
            starts.append(end)
            end, most = end + size, max(most, align)
        return starts, -(-end // most) * most, most

    def constant_byte(self, of, value, at, depth=0):
        """The byte at a place of a constant, or None where it is not known."""
        of = self.known(of)
        if depth > DEEPEST:
            return None
        size, _ = self.size(of)
        if isinstance(value, Zero) and 0 <= at < size:
            return 0
        if isinstance(of, Integer) and isinstance(value, Number):
            return value.value >> 8 * at & 255 if 0 <= at < size and of.bits % 8 == 0 else None
        if isinstance(value, Bytes):
            return value.data[at] if 0 <= at < len(value.data) else None
        if isinstance(of, (Array, Vector)) and isinstance(value, Aggregate):
            step = self.size(of.of)[0]
            if step and 0 <= at // step < len(value.parts):
                return self.constant_byte(*value.parts[at // step], at % step, depth + 1)
        if isinstance(of, Struct) and isinstance(value, Aggregate) and len(value.parts) == len(of.fields):
            for start, (part, inner) in zip(self.fields(of)[0], value.parts):
                if start <= at < start + self.size(part)[0]:
                    return self.constant_byte(part, inner, at - start, depth + 1)
        return None


def is_whole(text):
    """Whether an instruction ends with its line: all that it opens is closed, and an `invoke` has its labels."""
    bare = re.sub(r'"[^"]*"', '', text)
    if bare.count('[') > bare.count(']') or bare.count('(') > bare.count(')'):
        return False
    return not re.match(r'\s*(%\S+ = )?(invoke|landingpad)\b', bare) or ' unwind label ' in bare or 'landingpad' in bare
