"""Terms as `vegen terms` and `vegen lift` print them, which lanes of instructions fit them, and what rows of them load."""
import re

WORD = re.compile(r'[()]|[^\s()]+')
LOAD = re.compile(r'(\w+)([+-]\d+)@(\d+):(\d+)')
LANE = re.compile(r'(\w+)\.(\d+):(\d+)')


class Term:
    """An operation with its operands, or a leaf: a load, a constant, a value by its number, a parameter, or bits of a register."""

    def __init__(self, text, head, parts=(), amount=''):
        self.text, self.head, self.parts, self.amount = text, head, parts, amount

    def is_leaf(self):
        return not self.parts

    def width(self):
        return int(re.search(r'(\d+)$', self.head).group(1))

    def operation(self):
        """The name of the operation without its width."""
        return re.sub(r'\d+$', '', self.head)

    def load(self):
        """Pointer, offset and width of a load; None of another term."""
        found = LOAD.fullmatch(self.text) if self.is_leaf() else None
        return found and (found.group(1), int(found.group(2)), int(found.group(4)))

    def value(self):
        """The number of a value that is not looked into; None of another term."""
        found = re.fullmatch(r'#(\d+):\d+', self.text)
        return found and int(found.group(1))

    def leaves(self):
        return [self] if self.is_leaf() else [leaf for part in self.parts for leaf in part.leaves()]

    def shape(self):
        """The term with its loads left out, their widths but not their places; equal for what may be one pack."""
        if self.is_leaf():
            load = self.load()
            return ('load', load[0], load[2]) if load else ('value', self.head) if self.value() is not None else self.text
        return (self.head, self.amount, *(part.shape() for part in self.parts))


def read_term(text):
    words, at = WORD.findall(text), 0

    def term():
        nonlocal at
        word = words[at]
        at += 1
        if word != '(':
            return Term(word, word.rsplit(':', 1)[-1])
        head, parts, amount = words[at], [], ''
        at += 1
        while words[at] != ')':
            if re.fullmatch(r'\d+', words[at]):
                amount = words[at]
                at += 1
            else:
                parts.append(term())
        at += 1
        inner = ' '.join(part.text for part in parts) + (f' {amount}' if amount else '')
        return Term(f'({head} {inner})', head, tuple(parts), amount)

    return term()


class Value:
    """A line of `terms`: what it is (`parameter`, `load`, `operation`, `store`), its term, its cut term, and where it goes."""

    def __init__(self, number, kind, term=None, cut=None, place=None):
        self.number, self.kind, self.term, self.cut, self.place = number, kind, term, cut, place


def read_values(text):
    """The values that `terms --more` prints, by number."""
    values = {}
    for line in text.splitlines():
        number = int(line.split()[1])
        store = re.match(r'value \d+ store (\d+) (\w+)([+-]\d+) (.*) cut (.*)', line)
        operation = re.match(r'value \d+ i\d+ (\(.*) cut (.*)', line)
        if store:
            place = (store.group(2), int(store.group(3)), int(store.group(1)))
            values[number] = Value(number, 'store', read_term(store.group(4)), read_term(store.group(5)), place)
        elif operation:
            values[number] = Value(number, 'operation', read_term(operation.group(1)), read_term(operation.group(2)))
        else:
            values[number] = Value(number, line.split()[3])
    return values


class Lanes:
    """The lanes of the instances of an instruction file, by the operation at their root."""

    def __init__(self, text):
        self.by_root, self.names = {}, {}
        packable, name, lanes = True, None, []
        for line in [*text.splitlines(), 'instruction ']:
            if line.startswith('instruction '):
                self.add(name, lanes)
                name, lanes = line[len('instruction '):], []
            elif line.startswith('not packable'):
                lanes = []
            elif not line.endswith((' dynamic', ' too large')):
                lanes.append(line.split(' ', 2)[2])

    def add(self, name, lanes):
        """The first lane stands for those of one shape."""
        seen = set()
        for lane in lanes:
            shape = re.sub(r'\.\d+:', '.:', lane)
            if shape not in seen and len(seen) < 4:
                seen.add(shape)
                term = read_term(lane)
                self.by_root.setdefault((term.operation(), 0 if term.is_leaf() else term.width()), []).append((name, term))

    def fitting(self, *terms):
        """The names of entries of which a lane fits one of the terms, whose operands may be exchanged."""
        names = []
        for term in terms:
            for name, lane in self.by_root.get((term.operation(), term.width()), []) if not term.is_leaf() else []:
                word = name.split()[0]
                if word not in names and fits(lane, term, {}):
                    names.append(word)
        return names

    def near(self, term):
        """Names of entries with the same operation at their root, those of the same width first, with the lane of each."""
        if term.is_leaf():
            return []
        found = []
        for (operation, width), lanes in sorted(self.by_root.items(), key=lambda item: abs(item[0][1] - term.width())):
            if operation == term.operation():
                found += [(name.split()[0], lane.text) for name, lane in sorted(lanes, key=lambda one: len(one[1].text))[:3]]
        return list(dict(found).items())


def fits(lane, term, bound):
    """Whether a lane is the term but for its leaves, each of which stands for one leaf of the term."""
    if LANE.fullmatch(lane.text):
        if not term.is_leaf() or term.head != lane.head:
            return False
        return bound.setdefault(lane.text, term.text) == term.text
    if lane.is_leaf() or term.is_leaf():
        return lane.text == term.text
    if lane.head != term.head or lane.amount != term.amount or len(lane.parts) != len(term.parts):
        return False
    orders = [term.parts] if len(term.parts) != 2 or lane.operation() in ('slt', 'ult', 'cat') else [term.parts, term.parts[::-1]]
    for order in orders:
        tried = dict(bound)
        if all(fits(one, two, tried) for one, two in zip(lane.parts, order)):
            bound.update(tried)
            return True
    return False


def steps_of(values, term_of, number):
    """The operations that a value is made of by cut terms, the last one first."""
    found, left = [], [number]
    while left:
        value = values.get(left.pop())
        if value is not None and value.kind == 'operation' and value not in found:
            found.append(value)
            left += [leaf.value() for leaf in value.cut.leaves() if leaf.value() is not None]
    return found


def loads_apart(terms):
    """Of terms of one shape: the rows of loads, each the places in order, that neither stand beside each other nor are one place."""
    if len({term.shape() for term in terms}) != 1:
        return []
    apart = []
    for row in zip(*(term.leaves() for term in terms)):
        loads = [leaf.load() for leaf in row]
        if None in loads:
            continue
        offsets, step = [load[1] for load in loads], loads[0][2] // 8
        if len(set(offsets)) > 1 and any(b - a != step for a, b in zip(offsets, offsets[1:])):
            apart.append([(load[0], load[1]) for load in loads])
    return apart


def signed(number, width):
    return number - 2**width if number >= 2**(width - 1) else number


ARITHMETIC = {
    'add': lambda x, y, w: x + y, 'mul': lambda x, y, w: x * y, 'and': lambda x, y, w: x & y, 'or': lambda x, y, w: x | y,
    'xor': lambda x, y, w: x ^ y, 'umin': lambda x, y, w: min(x, y), 'umax': lambda x, y, w: max(x, y),
    'smin': lambda x, y, w: min(signed(x, w), signed(y, w)), 'smax': lambda x, y, w: max(signed(x, w), signed(y, w)),
    'eq': lambda x, y, w: int(x == y), 'ult': lambda x, y, w: int(x < y), 'slt': lambda x, y, w: int(signed(x, w) < signed(y, w)),
}


def number_of(term, leaf):
    """The number and the width of a term, where `leaf` gives those of its leaves but constants (docs/terms.md)."""
    if term.is_leaf():
        constant = re.fullmatch(r'(\d+):(\d+)', term.text)
        return (int(constant.group(1)), int(constant.group(2))) if constant else (leaf(term), int(term.head))
    name, width = term.operation(), term.width()
    parts = [number_of(part, leaf) for part in term.parts]
    (x, v), *rest = parts
    if name in ARITHMETIC:
        result = 1 if name in ('eq', 'ult', 'slt') else width
        return ARITHMETIC[name](x, rest[0][0], width) % 2**result, result
    if name == 'cat':
        return x * 2**rest[0][1] + rest[0][0], width
    if name == 'sel':
        return (rest[0] if x else rest[1])[0], width
    if name == 'lshr':
        return x >> int(term.amount), width
    if name == 'ashr':
        return (signed(x, v) >> int(term.amount)) % 2**width, width
    return (signed(x, v) if name == 'sext' else x) % 2**width, width
