"""A body of a program run line by line on the samples of `units.py`: what each line gives, and of each register the lines that it is of."""
import functools, re

import row_terms
from units import SAMPLES, argument, operation

ADDRESS = re.compile(r'(\w+)([+-]\d+)$')


class Instance:
    """An instruction, with its immediate where it has one: its entry, and its lanes, lane 0 first: terms, or None where one goes by data."""

    def __init__(self, entry, lanes):
        self.entry, self.texts = entry, lanes

    @functools.cached_property
    def lanes(self):
        return [None if text in ('dynamic', 'too large') else row_terms.read_term(text) for text in self.texts]

    def is_shuffle(self):
        return all(lane is not None and lane.is_leaf() for lane in self.lanes)


def read_instances(text, entries):
    """The instances that `lift` prints of these entries, by name and immediate as a program writes them."""
    found, lanes = {}, []
    for line in text.splitlines():
        words = line.split(' ', 2)
        if words[0] == 'instruction':
            lanes = found.setdefault(line[len('instruction '):], [])
        elif words[0] == 'lane':
            lanes.append(words[2])
    return {name: Instance(entries[name.split(' ')[0]], lanes) for name, lanes in found.items()}


class Line:
    """A line of a body: its number in the text, its word, what it gives (`%v0`, `%s0`, or None), its operands, what it gives on each
    sample with the width in bits, and of calls the instance."""

    def __init__(self, number, row):
        self.number, self.row, self.instance, self.immediate = number, row, None, None
        left, sign, right = row.partition(' = ')
        words = (right if sign else left).split(' ')
        target, _, kind = left.partition(':') if sign else ('', '', '')
        self.gives, self.width = target or None, int(kind[1:]) if kind else 0
        self.word, self.operands, self.sample = words[0], words[1:], None

    def place(self):
        """Pointer and offset of an access."""
        word = self.operands[1] if self.word in ('vload', 'vstore') else self.operands[0]
        found = ADDRESS.match(word)
        return found[1], int(found[2])

    def registers(self):
        return [word for word in self.operands if word.startswith('%')]


class Run:
    """The lines of a body, run."""

    def __init__(self, body, parameters, instances, memory):
        self.instances, self.memory, self.given = instances, memory, {}
        self.lines = [Line(number, row) for number, row in enumerate(body.lines, body.first)]
        for name, kind in parameters:
            if kind.startswith('i'):
                self.given[name] = argument(name, int(kind[1:])), int(kind[1:])
        for line in self.lines:
            self.line(line)
            if line.gives:
                self.given[line.gives] = line.sample, line.width

    def operand(self, word):
        """An operand on each sample, and its width."""
        literal = re.fullmatch(r'(\d+)i(\d+)', word)
        return ((int(literal[1]),) * SAMPLES, int(literal[2])) if literal else self.given[word]

    def line(self, line):
        act = getattr(self, 'do_' + line.word, None)
        if act:
            return act(line)
        operands = line.operands
        if line.word in ('shl', 'lshr', 'ashr'):
            (parts, width), amount = self.operand(operands[0]), int(operands[1])
            line.sample = operation(line.word, line.width, amount, [parts], width)
        else:
            pairs = [self.operand(word) for word in operands]
            line.sample = operation(line.word, line.width, 0, [sample for sample, _ in pairs], pairs[0][1])

    def do_load(self, line):
        line.sample = self.memory.load(*line.place(), line.width // 8)

    def do_store(self, line):
        line.sample, line.width = self.operand(line.operands[1])
        self.memory.store(*line.place(), line.width // 8, line.sample)

    def do_vload(self, line):
        size = int(line.operands[0])
        line.sample, line.width = self.memory.load(*line.place(), size), max(128, 8 * size)

    def do_vstore(self, line):
        size, (sample, width) = int(line.operands[0]), self.given[line.operands[2]]
        line.sample, line.width = tuple(number % 2**(8 * size) for number in sample), width
        self.memory.store(*line.place(), size, line.sample)

    def do_const(self, line):
        data = bytes.fromhex(line.operands[0])
        line.sample, line.width = (int.from_bytes(data, 'little'),) * SAMPLES, 8 * len(data)

    def do_insert(self, line):
        (base, line.width), lane, (part, width) = self.given[line.operands[0]], int(line.operands[1]), self.operand(line.operands[2])
        at, mask = lane * width, 2**width - 1
        line.sample = tuple(number & ~(mask << at) | new << at for number, new in zip(base, part))

    def do_extract(self, line):
        at = int(line.operands[1]) * line.width
        line.sample = tuple((number >> at) % 2**line.width for number in self.given[line.operands[0]][0])

    def do_call(self, line):
        name, words = line.operands[0], line.operands[1:]
        if 'imm' in words:
            line.immediate = words[-1]
            words = words[:-2]
        line.operands = [name, *words]
        line.instance = self.instances[name + (f' imm {line.immediate}' if line.immediate else '')]
        lanes = self.lanes_of(line)
        numbers, at = [0] * SAMPLES, 0
        for sample, width in lanes:
            numbers = [number | part << at for number, part in zip(numbers, sample or (0,) * SAMPLES)]
            at += width
        line.sample, line.width = tuple(numbers), at

    def lanes_of(self, line):
        """What each lane of a call gives on each sample, with its width."""
        names = [name for name, _ in line.instance.entry.parameters]
        registers = {name: self.given[word][0] for name, word in zip(names, line.operands[1:])}
        lanes = [lane_samples(lane, registers) for lane in line.instance.lanes]
        return lanes if None not in lanes else [(None, line.instance.entry.result)]


def lane_samples(lane, registers):
    """What a lane gives on each sample, with its width; None of a lane that goes by data."""
    if lane is None:
        return None
    width, made = 0, []
    for sample in range(SAMPLES):
        def leaf(term):
            name, at, bits = row_terms.LANE.fullmatch(term.text).groups()
            return (registers[name][sample] >> int(at)) % 2**int(bits)
        number, width = row_terms.number_of(lane, leaf)
        made.append(number)
    return tuple(made), width
