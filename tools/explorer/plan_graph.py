"""A plan as a graph for a picture: what each line of its program is of the kernel, and what goes into it.

`explain` tells the packs and not their units, so both texts are run on some numbers (`units.py`, `registers.py`), and a lane is the unit
that has its number on all of them; of a plan of rewritten units also one that is wider and has it as its low bits, or one that another line
has already. A pack is a `vload`, a `vstore` or a call that is no shuffle.
"""
import collections

import registers, units

MOST_INSIDE = 128
MOST_TERM = 600


class Node:
    """A box or a band: its kind (`load`, `store`, `call`, `shuffle`, `const`, `insert`, `extract`, `scalar`), its title, its cost, the lines
    of the program, its lanes, and the nodes of its operands."""

    def __init__(self, number, kind, title, cost, line, inputs):
        self.number, self.kind, self.title, self.cost, self.lines, self.inputs = number, kind, title, cost, [line], inputs
        self.lanes, self.level = [], 0

    def is_pack(self):
        return self.kind in ('load', 'store', 'call')

    def json(self):
        return {'id': self.number, 'kind': self.kind, 'title': self.title, 'cost': self.cost, 'lines': self.lines,
                'inputs': self.inputs, 'level': self.level, 'lanes': self.lanes}


class Free:
    """Which units are taken by no line yet, by what they are on the samples, and loads and stores by their place."""

    def __init__(self, all_units):
        self.by_sample, self.by_place, self.low, self.taken = {}, {}, {}, set()
        for unit in all_units:
            for width in (8, 16, 32, 64):
                if unit.sample and width < unit.width:
                    self.low.setdefault((unit.kind, width, tuple(number % 2**width for number in unit.sample)), unit.number)
            if unit.place:
                self.low.setdefault((unit.kind, unit.width, unit.place, unit.sample), unit.number)
            self.by_sample.setdefault((unit.kind, unit.width, unit.sample), collections.deque()).append(unit.number)
            if unit.place:
                self.by_place.setdefault((unit.kind, unit.width, unit.place, unit.sample), collections.deque()).append(unit.number)

    def first(self, table, key):
        """The first free unit of a key; those that are taken are left out for good."""
        line = table.get(key)
        while line and line[0] in self.taken:
            line.popleft()
        return line[0] if line else self.low.get(key)

    def take(self, number):
        if number is not None:
            self.taken.add(number)
        return number


class Graph:
    """The graph of a body that was run, beside the units of its kernel."""

    def __init__(self, of_kernel, run):
        self.units, self.run, self.nodes, self.made_by, self.operators = of_kernel.units, run, [], {}, {}
        self.free = Free(self.units)
        self.uses = collections.Counter(word for line in run.lines for word in line.registers())
        for line in run.lines:
            self.line(line)
        for node in self.nodes:
            for lane in node.lanes:
                if node.kind in ('call', 'scalar') and lane.get('unit') is not None:
                    lane['inside'] = self.inside(lane['unit'])
        self.levels()

    def put(self, kind, title, cost, line, words):
        inputs = list(dict.fromkeys(self.made_by[word] for word in words if word in self.made_by))
        node = Node(len(self.nodes), kind, title, cost, line.number, inputs)
        self.nodes.append(node)
        if line.gives:
            self.made_by[line.gives] = node.number
        return node

    def line(self, line):
        act = {'vload': self.vload, 'vstore': self.vstore, 'call': self.call, 'const': self.const, 'insert': self.insert,
               'extract': self.extract}.get(line.word, self.scalar)
        act(line)

    # Packs

    def vload(self, line):
        node = self.put('load', f'load {line.operands[0]} {line.operands[1]}', 1, line, ())
        node.lanes = self.accesses('load', line)

    def vstore(self, line):
        node = self.put('store', f'store {line.operands[0]} {line.operands[1]}', 1, line, line.operands[2:])
        node.lanes = self.accesses('store', line)

    def accesses(self, kind, line):
        """The lanes of a pack of loads or stores: those units of one width that cover its bytes."""
        pointer, start = line.place()
        size = int(line.operands[0])
        for width in (64, 32, 16, 8):
            step, numbers = width // 8, []
            for at in range(0, size, step):
                sample = tuple((number >> 8 * at) % 2**width for number in line.sample)
                numbers.append(self.free.first(self.free.by_place, (kind, width, (pointer, start + at), sample)))
                if numbers[-1] is None:
                    break
            else:
                return [{'unit': self.free.take(number), 'width': width} for number in numbers]
        return [{'unit': None, 'width': 8 * size}]

    def call(self, line):
        name, shuffles = line.operands[0], line.instance.is_shuffle()
        title = name + (f' imm {line.immediate}' if line.immediate else '')
        node = self.put('shuffle' if shuffles else 'call', title, line.instance.entry.cost, line, line.operands[1:])
        for term, (sample, width) in zip(line.instance.lanes, self.run.lanes_of(line)):
            lane = {'unit': None, 'width': width}
            if shuffles:
                lane['moved'] = self.known(width, sample)
            elif not term.is_leaf():
                lane['unit'] = self.free.take(self.free.first(self.free.by_sample, ('operation', width, sample)))
            node.lanes.append(lane)

    # What puts operands together

    def const(self, line):
        node = self.put('const', 'const', 1, line, ())
        node.data = line.operands[0]
        node.lanes = [{'unit': None, 'width': 32, 'number': self.number(node.data, 32, lane)} for lane in range(len(node.data) // 8)]

    def number(self, data, width, lane):
        return int.from_bytes(bytes.fromhex(data[lane * width // 4:(lane + 1) * width // 4]), 'little')

    def insert(self, line):
        """A chain of inserts into a constant is one box: what is used in no other way is no box of its own."""
        base, lane, word = line.operands
        node, width = self.nodes[self.made_by[base]], self.run.operand(word)[1]
        whole = node.kind == 'const' or node.kind == 'insert' and node.lanes[0]['width'] == width
        if not whole or self.uses[base] > 1:
            node = self.copied(node, line, base, width)
        if node.kind == 'const':
            node.kind, node.title = 'insert', 'put together'
            node.lanes = [{'unit': None, 'width': width, 'number': self.number(node.data, width, at)}
                          for at in range(4 * len(node.data) // width)]
        if node.lines[-1] != line.number:
            node.lines.append(line.number)
            node.cost += 1
        self.made_by[line.gives] = node.number
        if word in self.made_by:
            node.inputs = list(dict.fromkeys([*node.inputs, self.made_by[word]]))
        sample = self.run.operand(word)[0]
        node.lanes[int(lane)] = {'unit': None, 'width': width, 'inserted': self.known(width, sample) or word}

    def copied(self, base, line, word, width):
        """A box of its own for inserts into a register that is used elsewhere too."""
        node = self.put('insert', 'put together', 1, line, [word])
        if base.kind == 'const':
            node.data = base.data
            node.lanes = [{'unit': None, 'width': width, 'number': self.number(base.data, width, at)}
                          for at in range(4 * len(base.data) // width)]
        else:
            node.lanes = [{'unit': None, 'width': width} for _ in range(self.run.given[word][1] // width)]
        return node

    def extract(self, line):
        node = self.put('extract', f'extract {line.operands[1]}', 1, line, line.operands[:1])
        node.lanes = [{'unit': None, 'width': line.width, 'moved': self.known(line.width, line.sample)}]

    def scalar(self, line):
        """A load, an operation or a store outside packs."""
        kind = line.word if line.word in ('load', 'store') else 'operation'
        node = self.put('scalar', line.row.partition(' = ')[2] or line.row, 1, line, line.registers())
        if kind == 'operation':
            number = self.free.first(self.free.by_sample, (kind, line.width, line.sample))
        else:
            number = self.free.first(self.free.by_place, (kind, line.width, line.place(), line.sample))
        node.lanes = [{'unit': self.free.take(number), 'width': line.width}]

    def known(self, width, sample):
        """A unit with this number on all samples, taken or not."""
        for kind in ('operation', 'load', 'parameter'):
            line = self.free.by_sample.get((kind, width, sample))
            if line:
                return line[0]
        return None

    # Afterwards

    def inside(self, number):
        """The operations that a lane does on the way to its unit, and that stand in no lane and no line of their own."""
        found, left = [], list(self.units[number].operands)
        while left and len(found) < MOST_INSIDE:
            one = left.pop()
            if isinstance(one, int) and one not in self.free.taken and one not in found and self.units[one].kind == 'operation':
                found.append(one)
                left += self.units[one].operands
        return sorted(found)

    def levels(self):
        """Each node stands below its operands, and what has none right above the first that it goes into."""
        users = {}
        for node in self.nodes:
            node.level = 1 + max((self.nodes[one].level for one in node.inputs), default=-1)
            for one in node.inputs:
                users.setdefault(one, []).append(node.number)
        for node in self.nodes:
            if not node.inputs and node.number in users:
                node.level = min(self.nodes[one].level for one in users[node.number]) - 1

    def json(self, terms):
        """The graph; `terms` are those of `vegen terms` by number."""
        lines = [{'n': unit.number, 'kind': unit.kind, 'op': unit.name, 'label': unit.label(), 'width': unit.width, 'line': unit.line,
                  'place': f'{unit.place[0]}{unit.place[1]:+d}' if unit.place else None, 'term': terms.get(unit.number, '')[:MOST_TERM],
                  'of': [one if isinstance(one, int) else f'{one[0]}i{one[1]}' for one in unit.operands]} for unit in self.units]
        return {'nodes': [node.json() for node in self.nodes], 'units': lines, 'packs': sum(node.is_pack() for node in self.nodes)}


def terms_of(text):
    """The term of each value that `terms` prints, by number; of a store that of what it stores."""
    found = {}
    for line in text.splitlines():
        _, number, kind, rest = line.split(' ', 3)
        found[int(number)] = rest.split(' ', 2)[2] if kind == 'store' else rest
    return found


def graph(kernel, program, instances):
    """The graph of the fast body of a text of a program: that of a program, of a block of turns, or behind checks."""
    body = program.bodies[{'program': 'body', 'guarded': 'then', 'looped': 'block', 'guardedloop': 'then'}[program.kind]]
    of_kernel = units.Units(kernel, program.block)
    initial = {}
    of_kernel.run(units.Memory(initial))
    return Graph(of_kernel, registers.Run(body, program.parameters, instances, units.Memory(initial)))
