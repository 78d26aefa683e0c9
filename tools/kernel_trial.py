"""Runs a kernel beside the function that it was made of: `vegen eval`, and the compiled function in a process of its own."""
import concurrent.futures, ctypes, json, os, random, re, subprocess, sys, tempfile

import llvm_ir as ir
from layouts import random_memory, run_vegen

CALLER = os.path.join(os.path.dirname(os.path.abspath(__file__)), 'call_function.py')
DRAWS, LONGEST_STRIDE, MOST_TURNS, EACH = 60, 160, 20, 10
DROPPED = re.compile(r'(?<= )(?:nsw|nuw|exact|nneg|disjoint|samesign|inbounds|nusw) '
                     r'|, !(?:tbaa|range|noundef|nonnull|alias\.scope|noalias) !\d+')


class Failed(Exception):
    """A trial that cannot be made."""


def without_flags(text):
    """The text of IR without the words by which arithmetic may mean nothing, and without what it says of memory by types."""
    return DROPPED.sub('', text)


def shared_object(text, name, clang, opt, folder):
    """Compiles the function of a text of IR, alone, and gives the path of the shared object."""
    source, target = os.path.join(folder, 'function.ll'), os.path.join(folder, 'function.so')
    with open(source, 'w', encoding='utf-8', errors='surrogateescape') as file:
        file.write(text)
    if opt:
        run([opt, '-S', '-passes=internalize,globaldce', f'-internalize-public-api-list={name}', source, '-o', source + '.one.ll'])
        source += '.one.ll'
    run([clang, '-O2', '-w', '-shared', '-fPIC', '-Wl,-Bsymbolic', '-x', 'ir', source, '-o', target])
    return target


def whole_object(text, clang, folder):
    """Compiles a text of IR whole; what it calls and no library has ends the process."""
    source, target, stubs = (os.path.join(folder, name) for name in ('file.ll', 'file.so', 'stubs.s'))
    with open(source, 'w', encoding='utf-8', errors='surrogateescape') as file:
        file.write(text)
    run([clang, '-O2', '-w', '-c', '-fPIC', '-x', 'ir', source, '-o', source + '.o'])
    told = subprocess.run(['nm', '-u', source + '.o'], capture_output=True, text=True, errors='replace').stdout
    here = ctypes.CDLL(None)
    absent = [word for word in re.findall(r' U (\S+)', told) if not hasattr(here, word)]
    with open(stubs, 'w') as file:
        file.write(''.join(f'.globl {word}\n{word}:\n' for word in absent) + 'ud2\n.section .note.GNU-stack\n')
    run([clang, '-shared', '-Wl,-Bsymbolic', source + '.o', stubs, '-lm', '-o', target])
    return target


def run(words):
    ended = subprocess.run(words, capture_output=True, text=True, errors='replace', stdin=subprocess.DEVNULL)
    if ended.returncode:
        lines = [line for line in ended.stderr.split('\n') if 'warning' not in line]
        raise Failed(f'{os.path.basename(words[0])} ended with {ended.returncode}: {lines[0][:300]}')


class Spot:
    """What is reached through one parameter of a kernel: from which byte to which one."""

    def __init__(self, key, parameter, accesses):
        self.base, self.terms, self.parameter = key[0], dict(key[1]), parameter
        own = [(number, number + size) for pointer, number, size in accesses if pointer is parameter]
        self.low, self.high = min(low for low, _ in own), max(high for _, high in own)


class Layout:
    """Places and numbers for one run; `apart` is whether no two pointers meet."""

    def __init__(self):
        self.numbers, self.places, self.bound, self.size, self.apart = {}, {}, {}, 0, True


class Trial:
    """A translation, its kernel's text, and what is known of where its pointers may stand."""

    def __init__(self, made, text, seed):
        self.made, self.text, self.rng = made, text, random.Random(f'{seed} {made.function.name}')
        accesses = list(made.graph.accesses())
        self.spots = [Spot(key, parameter, accesses) for key, parameter in made.spots.items()]
        self.grain = max([size for _, _, size in accesses] or [1])
        self.strides = {word: kind for spot in self.spots for word, kind in spot.terms}

    # Layouts

    def integer(self, width):
        rng = self.rng
        return rng.choice([0, 1, (1 << width) - 1, 1 << width - 1, (1 << width - 1) - 1, rng.getrandbits(width), rng.getrandbits(width),
                           rng.getrandbits(4)])

    def numbers(self):
        """A number for each integer parameter."""
        found = {}
        for name, value in self.made.integers.items():
            if name == self.made.times():
                found[name] = self.rng.randrange(MOST_TURNS)
            elif name in self.strides:
                low = 0 if self.strides[name] == 'zext' else -LONGEST_STRIDE
                found[name] = self.rng.randrange(low, LONGEST_STRIDE) // self.grain * self.grain
            else:
                found[name] = self.integer(value.width)
        return found

    def start(self, spot, numbers):
        return sum(times * numbers[word] for (word, _), times in spot.terms.items())

    def reach(self, spot, numbers):
        """The bytes that all turns reach, counted from the base; nothing where there is no turn."""
        turns = numbers[self.made.times()] if self.made.times() else 1
        at = self.start(spot, numbers)
        return at + spot.low, at + spot.high + spot.parameter.step * max(0, turns - 1)

    def layout(self):
        """A layout that keeps what the kernel and the function promise."""
        for draw in range(DRAWS):
            made = self.drawn(self.rng.random() < 0.6 and draw < DRAWS // 2)
            if made:
                return made
        raise Failed('no layout keeps all that is promised')

    def drawn(self, may_meet):
        """A layout at random, or None where it breaks a promise; with `may_meet` pointers may stand near each other."""
        made, end, ends = Layout(), 64, {}
        made.numbers = self.numbers()
        for base in self.made.bases:
            reach = [self.reach(spot, made.numbers) for spot in self.spots if spot.base is base] or [(0, 0)]
            low, high = min(low for low, _ in reach), max(high for _, high in reach)
            others = list(made.places.values())
            if may_meet and others and self.rng.random() < 0.8:
                place = self.rng.choice(others) + self.rng.randrange(-24, 40) * self.grain
            else:
                place = end + self.rng.randrange(5) * self.grain - min(low, 0)
            place += -place % self.grain
            if place + min(0, low) < 0:
                return None
            made.places[base] = place
            end = max(end, place + high + -(place + high) % 8)
            ends[base] = place + low, place + high
        made.apart = not any(meet(one, two) for a, one in ends.items() for b, two in ends.items() if a is not b)
        return self.finished(made, ends, end) if self.keeps(made, ends) else None

    def keeps(self, made, ends):
        """Whether a layout keeps the promises of the function's pointers and of the kernel's."""
        spots = [(spot, [made.places[spot.base] + at for at in self.reach(spot, made.numbers)]) for spot in self.spots]
        return not any(meet(one, two) for a, one in ends.items() for b, two in ends.items() if a is not b and a.alone) \
            and not any(meet(one, two) for a, one in spots for b, two in spots if a is not b and a.parameter.alone)

    def finished(self, made, ends, end):
        for spot in self.spots:
            made.bound[spot.parameter.name] = made.places[spot.base] + self.start(spot, made.numbers)
        for parameter in self.made.parameters():
            if parameter.kind != 'ptr':
                made.bound[parameter.name] = made.numbers[parameter.name]
            else:
                made.bound.setdefault(parameter.name, 0)
        if self.made.result:
            made.bound['ret'] = end + 8
        made.size = end + 16 + self.rng.randrange(8)
        return made

    # The function

    def kinds(self):
        """How the function is called: of each argument `ptr` or `u32` and the like, and its result."""
        if any('byval' in p.attributes for p in self.made.function.parameters):
            raise Failed('a structure that is passed by value cannot be passed here')
        kinds = ['ptr' if isinstance(p.type, ir.Pointer) else ('s' if 'signext' in p.attributes else 'u') + str(p.type.bits)
                 for p in self.made.function.parameters]
        result = self.made.function.result
        return kinds, result.bits if isinstance(result, ir.Integer) else 0

    def arguments(self, layout):
        """The arguments of a call: pointers as places."""
        found = []
        for given in self.made.function.parameters:
            name = self.made.exact[given.name]
            if given.name in self.made.fixed:
                found.append(self.made.fixed[given.name])
            elif isinstance(given.type, ir.Pointer):
                found.append(layout.places[self.made.known[given.name].base])
            else:
                found.append(layout.numbers[name])
        return found

    def calls(self, shared, layouts, memories, folder):
        """What the function leaves of each memory."""
        kinds, result = self.kinds()
        path = os.path.join(folder, 'calls')
        with open(path, 'w') as file:
            print(json.dumps([shared, self.made.function.name, kinds, result]), file=file)
            for layout, memory in zip(layouts, memories):
                print(json.dumps([self.arguments(layout), layout.bound.get('ret'), memory.hex()]), file=file)
        with open(path) as file:
            ended = subprocess.run([sys.executable, '-I', '-S', CALLER], stdin=file, capture_output=True, text=True)
        left = [bytes.fromhex(line) if line != '-' else None for line in ended.stdout.split('\n')[:-1]]
        if ended.returncode or len(left) != len(layouts):
            raise Failed(f'the compiled function ended with {ended.returncode} on memory {len(left)}: {ended.stderr[-300:].strip()}')
        return left

    def run(self, count, vegen, shared, folder, jobs=2, other=None):
        """What differs on that many memories, as lines, and how many layouts had pointers that met. `other` is the text of one more
        kernel, of the same parameters, that has to leave the same on each tenth memory."""
        layouts = [self.layout() for _ in range(count)]
        memories = [random_memory(layout.size, self.rng) for layout in layouts]
        left = self.calls(shared, layouts, memories, folder)
        kernels = ['kernel'] + ['other'] * (other is not None)
        for name, text in zip(kernels, (self.text, other)):
            with open(os.path.join(folder, name), 'w') as file:
                file.write(text)
        with concurrent.futures.ThreadPoolExecutor(jobs) as pool:
            said = pool.map(lambda k: self.compare(vegen, folder, kernels, k, layouts[k], memories[k], left[k]), range(count))
            return [line for line in said if line], sum(not layout.apart for layout in layouts)

    def compare(self, vegen, folder, kernels, number, layout, memory, wanted):
        """A line on what differs on one memory, or nothing."""
        name = f'memory{number}'
        path = os.path.join(folder, name)
        with open(path, 'wb') as file:
            file.write(memory)
        bound = [f'{word}={value}' for word, value in layout.bound.items()]
        some = kernels if number % EACH == 0 else kernels[:1]
        ended = [run_vegen(vegen, ['eval', kernel, name, *bound], folder) for kernel in some]
        os.remove(path)
        where = f'memory {number} of {len(memory)} bytes with {" ".join(bound)}'
        if wanted is None:
            return f'{where}: the function wrote outside of the memory'
        return next((f'{where}: {said}' for said in (difference(one, wanted) for one in ended) if said), None)


def difference(ended, wanted):
    """What a run of `eval` left otherwise than the function, or nothing."""
    if ended.returncode:
        return f'eval ends with {ended.returncode}: {ended.stderr.decode(errors="replace").strip()}'
    if ended.stdout != wanted:
        at = next((k for k, pair in enumerate(zip(ended.stdout, wanted)) if pair[0] != pair[1]), -1)
        return f'byte {at} is {ended.stdout[at]} by eval, {wanted[at]} by the function'
    return None


def meet(one, two):
    return one[0] < two[1] and two[0] < one[1]


def trial(made, text, source, clang, opt, vegen, count, seed):
    """Lines on what differs, and how many of the layouts had pointers that met. `source` is IR of the function."""
    with tempfile.TemporaryDirectory() as folder:
        shared = shared_object(source, made.function.name, clang, opt, folder)
        return Trial(made, text, seed).run(count, vegen, shared, folder)
