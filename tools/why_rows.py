"""Why rows of stores of a kernel are packed or stay scalar: what `explain`, `terms` and `lift` tell, and what mends it, each way tried.

A row is a number of stores of one width through one pointer, each beside the one before. A mending is a way to write the kernel, or an
option; where with some of them a row is packed, they are what is told. A kernel that is written in another way is run beside the
given one on some memories, and left out where they differ; it is a hint and no proof that both mean the same.
"""
import concurrent.futures, hashlib, itertools, os, random, re, subprocess, tempfile

import kernel_text, mendings, row_terms

SEARCHED = 256
RUNS = 12
TEXTS = {
    'more': 'no lane computes its whole term: with `--more` its steps are fitted one by one',
    'fed': 'its loads do not stand beside each other: with `--more` more is loaded than is wanted, and lanes are moved',
    'loads': 'a load that is named and used in several places is one load: write it out at each use, as in `load8(p + 3) + load8(p + 4)`',
    'narrow16': 'it is computed in more bits than it needs: written in 16 bits it is packed (on {runs} memories it left the same)',
    'narrow8': 'it is computed in more bits than it needs: written in 8 bits it is packed (on {runs} memories it left the same)',
    'pairs': 'a sum of several parts is one chain: parentheses around what one instruction sums, as in `(a + b) + (c + d)`',
    'width': 'the search keeps too few plans: `--width 512` finds it',
    'alone': 'the search prefers another plan for the whole kernel: with the other stores left out the row is packed; try `--width 512`, '
             'or a kernel of its own',
}


class Row:
    """Stores beside each other: pointer, first byte and byte behind the last, width in bits, the places among the kernel's stores."""

    def __init__(self, pointer, start, width, stores):
        self.pointer, self.start, self.width, self.stores = pointer, start, width, stores

    def end(self):
        return self.start + len(self.stores) * self.width // 8

    def text(self):
        number = len(self.stores)
        place = f'{self.pointer}{self.start:+d}'
        return f'{place} ({number} store{"s" if number != 1 else ""} of {self.width} bits)'


class Plan:
    """What `explain` writes: its lines, which bytes are packed through which pointer, and the three costs."""

    def __init__(self, text):
        self.lines = text.splitlines()
        self.stores = [(m.group(2), int(m.group(3)), int(m.group(1))) for m in
                       (re.fullmatch(r'pack store (\d+) (\w+)([+-]\d+)', line) for line in self.lines) if m]
        last = re.search(r'plan cost (\d+) plain (\d+) scalar (\d+)', text)
        self.cost, self.plain, self.scalar = (int(n) for n in last.groups()) if last else (0, 0, 0)

    def packed_bytes(self, row):
        return sum(max(0, min(row.end(), start + size) - max(row.start, start))
                   for pointer, start, size in self.stores if pointer == row.pointer)

    def holds(self, row):
        return self.packed_bytes(row) == row.end() - row.start

    def calls_for(self, row):
        """The entries that are called for the row: those behind its stores, up to the next stores."""
        names, inside = [], False
        for line in self.lines:
            store = re.fullmatch(r'pack store (\d+) (\w+)([+-]\d+)', line)
            if store:
                inside = store.group(2) == row.pointer and row.start <= int(store.group(3)) < row.end()
            call = re.match(r'pack call (\S+)', line)
            if call and inside and call.group(1) not in names:
                names.append(call.group(1))
        return names


class Refused(Exception):
    """The program refused a file: its status and its line."""


class Tries:
    """Runs of the program on kernels that are tried, each once."""

    def __init__(self, binary, instructions, folder):
        self.binary, self.instructions, self.folder, self.plans = binary, instructions, folder, {}

    def run(self, *words):
        done = subprocess.run([self.binary, *words], capture_output=True)
        if done.returncode not in (0, 10):
            raise Refused(done.returncode, done.stderr.decode('utf-8', 'replace').strip())
        return done

    def file(self, text):
        """A file with this text; one that is there is not written again."""
        path = os.path.join(self.folder, hashlib.sha256(text.encode('latin-1')).hexdigest() + '.kernel')
        if not os.path.exists(path):
            with tempfile.NamedTemporaryFile('w', encoding='latin-1', dir=self.folder, delete=False) as file:
                file.write(text)
            os.replace(file.name, path)
        return path

    def plan(self, kernel, options):
        key = (kernel.text(), *options)
        if key not in self.plans:
            done = self.run('explain', self.instructions, self.file(kernel.text()), *options)
            self.plans[key] = Plan(done.stdout.decode())
        return self.plans[key]

    def values(self, kernel):
        return row_terms.read_values(self.run('terms', self.file(kernel.text()), '--more').stdout.decode('latin-1'))

    def lanes(self):
        return row_terms.Lanes(self.run('lift', self.instructions).stdout.decode('latin-1'))

    def left(self, kernel, memory, bindings):
        path = os.path.join(self.folder, 'tried.memory')
        with open(path, 'wb') as file:
            file.write(memory)
        done = self.run('eval', self.file(kernel.text()), path, *bindings)
        return done.returncode, done.stdout

    def same(self, one, two):
        """Whether both leave the same, on some memories."""
        rng = random.Random(1)
        for number in range(RUNS):
            pointers, bindings = one.pointers(), []
            for name, kind in one.parameters:
                if kind.endswith('ptr'):
                    bindings.append(f'{name}={4096 * pointers.index(name) + 2048}')
                else:
                    bits = int(kind[1:])
                    bindings.append(f'{name}={rng.randrange(30) if one.is_loop() else rng.randrange(2**bits)}')
            memory = bytes(rng.choice([0, 255, 128, 127, rng.randrange(256)]) for _ in range(4096 * (len(pointers) + 1)))
            if number == 0:
                memory = bytes(range(256)) * (16 * (len(pointers) + 1))
            if self.left(one, memory, bindings) != self.left(two, memory, bindings):
                return False
        return True


def rows_of(values):
    """The rows of stores, by pointer, width and place, in the order of their first stores."""
    stores = [value.place for value in values.values() if value.kind == 'store']
    rows, by_place = [], {}
    for number, (pointer, offset, width) in enumerate(stores):
        by_place.setdefault((pointer, width), {}).setdefault(offset, number)
    for (pointer, width), places in by_place.items():
        row = None
        for offset in sorted(places):
            if row is None or offset != row.end():
                row = Row(pointer, offset, width, [])
                rows.append(row)
            row.stores.append(places[offset])
    return sorted(rows, key=lambda row: min(row.stores))


class Story:
    """What is told of a row: whether it is packed, the sentences, and the mendings with which it would be."""

    def __init__(self, row, packed, sentences, mended=(), lines=()):
        self.row, self.packed, self.sentences, self.mended, self.lines = row, packed, sentences, mended, lines


class Why:
    """The stories of all rows of a kernel."""

    def __init__(self, tries, text, options):
        self.tries, self.options = tries, options
        self.kernel = kernel_text.read_kernel(text)
        self.plan = tries.plan(self.kernel, options)
        self.values = tries.values(self.kernel)
        self.units = sum(value.kind != 'parameter' for value in self.values.values())
        self.stores = [value for value in self.values.values() if value.kind == 'store']
        self.known_lanes = self.known_ways = None

    def lanes(self):
        if self.known_lanes is None:
            self.known_lanes = self.tries.lanes()
        return self.known_lanes

    def lines_of(self, row):
        """The lines of the text on which its stores stand."""
        inside = [statement.line for statement in self.kernel.statements if statement.is_store()]
        return sorted({inside[number % len(inside)] for number in row.stores})

    def stories(self):
        return [self.story(row) for row in rows_of(self.values)]

    def story(self, row):
        lines = self.lines_of(row)
        if self.plan.holds(row):
            names = self.plan.calls_for(row)
            how = f'packed, by {", ".join(names)}' if names else 'packed, as loads and stores alone'
            return Story(row, True, [how], lines=lines)
        sentences = []
        part = self.plan.packed_bytes(row)
        if part:
            sentences.append(f'packed in part: {part} of {row.end() - row.start} bytes')
        if row.end() - row.start < 4:
            return Story(row, False, [*sentences, *self.short_row(row)], lines=lines)
        mended = self.mending(row)
        if mended is not None:
            return Story(row, False, [*sentences, *self.told(row, mended)], mended[0], lines)
        return Story(row, False, [*sentences, *self.structure(row)], lines=lines)

    def short_row(self, row):
        """Fewer than four bytes beside each other."""
        told = [f'a pack of stores has 4 bytes and more beside each other, and here are {row.end() - row.start}']
        others = sorted(other.start for other in rows_of(self.values) if other.pointer == row.pointer and other.width == row.width)
        if len(others) > 1:
            steps = sorted({b - a for a, b in zip(others, others[1:])})
            told.append(f'stores through {row.pointer} stand at {", ".join(f"{row.pointer}{at:+d}" for at in others[:4])} '
                        f'({"every " if len(steps) == 1 else ""}{steps[0]} bytes): only what stands beside each other is packed')
        return told + self.reduction(row)

    def reduction(self, row):
        """A sum of many parts in one store."""
        term = self.stores[row.stores[0]].term
        loads = [leaf for leaf in term.leaves() if leaf.load()]
        if len(row.stores) == 1 and len(loads) >= 4:
            return [f'one number is made of {len(loads)} loads: no reductions are made; keep as many sums as a register has lanes, each in '
                    'a store of its own, and add those behind it']
        return []

    def ways_once(self):
        if self.known_ways is None:
            self.known_ways = self.ways()
        return self.known_ways

    def ways(self):
        """The mendings that change something, by name: a kernel made of a kernel, or options."""
        alone = [name for name, kind in self.kernel.parameters if kind == 'ptr']
        ways = []
        if alone and len(self.kernel.pointers()) > 1:
            ways.append(('noalias', lambda kernel: kernel.with_noalias(alone), ()))
        if '--more' not in self.options:
            ways.append(('more', None, ('--more',)))
        for name, change in (('loads', mendings.loads_at_uses), ('narrow16', mendings.narrowed(16)), ('narrow8', mendings.narrowed(8)),
                             ('pairs', mendings.sums_in_pairs)):
            made = change(self.kernel)
            if made is not None and self.is_good(made):
                ways.append((name, change, ()))
        return ways

    def is_good(self, made):
        try:
            return self.tries.same(self.kernel, made)
        except Refused:
            return False

    def mending(self, row):
        """The fewest mendings with which the row is packed: their names, and the plan; None where there are none."""
        for number in range(1, 5):
            for some in itertools.combinations(self.ways_once(), number):
                names = [name for name, _, _ in some]
                if 'narrow16' in names and 'narrow8' in names:
                    continue
                plan = self.tried(some)
                if plan is not None and plan.holds(row):
                    return names, plan
        return self.last_ways(row)

    def tried(self, some):
        kernel, options = self.kernel, list(self.options)
        for _, change, more in some:
            kernel = change(kernel) if change and kernel is not None else kernel
            options += more
        if kernel is None:
            return None
        try:
            return self.tries.plan(kernel, options)
        except Refused:
            return None

    def last_ways(self, row):
        """A wider search, or the row without the others."""
        if self.units <= SEARCHED and '--width' not in ' '.join(self.options):
            plan = self.tries.plan(self.kernel, [*self.options, '--width', '512'])
            if plan.holds(row):
                return ['width'], plan
        if not self.kernel.is_loop() and len(row.stores) < len(self.stores):
            alone = mendings.rows_alone(self.kernel, set(row.stores))
            plan = self.tries.plan(alone, self.options)
            if plan.holds(row):
                return ['alone'], plan
        return None

    def told(self, row, mended):
        names, plan = mended
        told = [self.text_of(row, name, names) for name in names]
        called = plan.calls_for(row)
        cost = f'the kernel then costs {plan.cost} (now {self.plan.cost}, scalar {self.plan.scalar})'
        told.append(f'then it is packed{", by " + ", ".join(called) if called else ""}; {cost}')
        if self.units > SEARCHED and names != ['alone']:
            told.append(f'the kernel has {self.units} loads, operations and stores: above {SEARCHED} few plans are looked at')
        return told

    def text_of(self, row, name, names):
        """The sentence on a mending of a row."""
        if name == 'noalias':
            return self.alias_text(row, names)
        term = self.stores[row.stores[0]].term
        if name == 'more' and (term.is_leaf() or self.lanes().fitting(term)):
            name = 'fed'
        return TEXTS[name].format(runs=RUNS)

    def cheapest(self):
        """Of up to three mendings together those with which the whole kernel costs least: their names, and what it then costs."""
        ways = self.ways_once()
        some = [one for number in range(1, 4) for one in itertools.combinations(ways, number)
                if not {'narrow16', 'narrow8'} <= {name for name, _, _ in one}]
        with concurrent.futures.ThreadPoolExecutor(os.cpu_count()) as pool:
            plans = list(pool.map(self.tried, some))
        best, names = self.plan.cost, []
        for one, plan in zip(some, plans):
            if plan is not None and plan.cost < best:
                best, names = plan.cost, [name for name, _, _ in one]
        return names, best

    def alias_text(self, row, names):
        """Which pointers may meet, and the fewest that have to be noalias."""
        others = [way for way in self.known_ways if way[0] in names and way[0] != 'noalias']
        alone = [name for name, kind in self.kernel.parameters if kind == 'ptr']
        for name in [row.pointer, *alone]:
            plan = self.tried([('noalias', lambda kernel, name=name: kernel.with_noalias([name]), ()), *others])
            if name in alone and plan is not None and plan.holds(row):
                alone = [name]
                break
        through = ', '.join(sorted({leaf.load()[0] for store in row.stores for leaf in self.stores[store].term.leaves() if leaf.load()}
                                   - {row.pointer}))
        what = f'a store through {row.pointer} may change what is loaded{" through " + through if through else ""} behind it'
        helps = f'`{", ".join(f"{name}: noalias ptr" for name in alone)}` promises that it does not'
        guard = '`compile --guard --more` asks before each block' if self.kernel.is_loop() else '`compile --guard` asks at each call'
        return f'{what}: {helps}; where callers cannot, {guard}'

    def structure(self, row):
        """What stands against a pack where no mending was found."""
        terms = [self.stores[number].term for number in row.stores]
        told = []
        if self.units > SEARCHED:
            told.append(f'the kernel has {self.units} loads, operations and stores: above {SEARCHED} no search is made; write the rows as '
                        'kernels of their own, or as a loop')
        if len({term.shape() for term in terms}) != 1:
            told.append(f'the stores compute different things: {short(terms[0].text)} and {short(self.other(terms).text)}; only what has one '
                        'form in each lane is one pack')
        for places in row_terms.loads_apart(terms)[:2]:
            shown = ', '.join(f'{pointer}{offset:+d}' for pointer, offset in places[:4])
            told.append(f'the loads {shown}{", .." if len(places) > 4 else ""} do not stand beside each other, and no entry that moves lanes '
                        'brings them there for less')
        told += self.without_entry(row)
        if self.plan.plain > self.plan.scalar:
            told.append(f'the plan that packs what it can (plain) costs {self.plan.plain}, and the scalar program {self.plan.scalar}')
        return told + self.reduction(row) or ['each way that was tried costs more than the scalar program']

    def other(self, terms):
        return next(term for term in terms if term.shape() != terms[0].shape())

    def without_entry(self, row):
        """The steps of the first store that no lane fits, with the nearest entries."""
        stored, lanes = self.stores[row.stores[0]], self.lanes()
        if stored.term.is_leaf() or lanes.fitting(stored.term):
            return []
        cut, told = stored.cut, [f'no entry computes {short(stored.term.text)} as a whole']
        first = cut.leaves() if cut.is_leaf() else []
        steps = [value for value in self.values.values() if value.kind == 'operation'
                 and (value.cut.text == cut.text or value.number in [leaf.value() for leaf in first])]
        bad = [value for value in (row_terms.steps_of(self.values, None, steps[-1].number) if steps else [])
               if not lanes.fitting(value.term, value.cut)]
        for value in bad[:2]:
            near = lanes.near(value.cut)
            names = '; '.join(f'{name} is {short(lane, 70)}' for name, lane in near[:2])
            told.append(f'no entry computes the step {short(value.cut.text)} (value {value.number})' + (f'; nearest: {names}' if names else ''))
        return told


def short(text, most=90):
    return text if len(text) <= most else text[:most - 3] + '...'


class Answer:
    """All that is told of a kernel: its plan, its units, the stories of its rows, and the cheapest way that was tried."""

    def __init__(self, why):
        self.plan, self.units, self.stories = why.plan, why.units, why.stories()
        self.names, self.cost = why.cheapest()


def answer(binary, instructions, text, options):
    """What is told of the text of a kernel; Refused where the program refuses a file, ValueError where the text is none."""
    with tempfile.TemporaryDirectory() as folder:
        return Answer(Why(Tries(binary, instructions, folder), text, list(options)))
