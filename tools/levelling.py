"""Dead loads that level a kernel and a program, so that `check` finds each byte loaded equally often (docs/checking-compilers.md)."""
import collections, re

from machine import accesses

LOAD = re.compile(r'%\w+(?::i(\d+))? = v?load (?:(\d+) )?(\w+)([+-]\d+)$')


def program_loads(lines):
    """The loads of a program: (number of the line, bytes, pointer, offset)."""
    for k, line in enumerate(lines):
        found = LOAD.match(line)
        if found:
            yield k, int(found[1]) // 8 if found[1] else int(found[2]), found[3], int(found[4])


def counted(loads):
    """How often each byte is loaded."""
    return collections.Counter((pointer, offset + k) for _, size, pointer, offset in loads for k in range(size))


def place(pointer, offset):
    return f'{pointer} {"-" if offset < 0 else "+"} {abs(offset)}'


class Levelled:
    """A kernel's and a program's text with dead loads, and how many each got."""

    def __init__(self, kernel, program):
        self.kernel, self.program = kernel, program.rstrip('\n').split('\n')
        self.in_kernel = self.in_program = 0
        self.own = [(at, size, pointer, offset) for kind, size, pointer, offset, at in accesses(kernel) if kind == 'load']
        loads = list(program_loads(self.program))
        self.mine, self.theirs = counted(self.own), counted(loads)
        self.to_kernel()
        self.to_program(loads)

    def to_kernel(self):
        """Repeats loads of which the program has more, and loads the bytes of gaps."""
        added, seen = [], set()
        for at, size, pointer, offset in self.own:
            if (size, pointer, offset) in seen:
                continue
            seen.add((size, pointer, offset))
            keys = [(pointer, offset + k) for k in range(size)]
            more = max(self.theirs[key] - self.mine[key] for key in keys)
            if more > 0:
                added += [(at, 8 * size, pointer, offset)] * more
                for key in keys:
                    self.mine[key] += more
        for pointer, offset in self.gaps():
            many = self.theirs[pointer, offset]
            added += [(self.kernel.index('{') - 1, 8, pointer, offset)] * many
            self.mine[pointer, offset] += many
        self.write_kernel(added)

    def gaps(self):
        """Bytes that only the program loads, between bytes of one pointer that the kernel accesses."""
        reach = {}
        for _, size, pointer, offset, _ in accesses(self.kernel):
            low, high = reach.get(pointer, (offset, offset))
            reach[pointer] = min(low, offset), max(high, offset + size)
        return [(pointer, offset) for pointer, offset in sorted(self.theirs)
                if not self.mine[pointer, offset] and pointer in reach and reach[pointer][0] <= offset < reach[pointer][1]]

    def write_kernel(self, added):
        """Puts each dead load after the statement in which the place stands."""
        name, text = 'dead', self.kernel
        while re.search(rf'\b{name}\d', text):
            name += '_'
        for k, (at, width, pointer, offset) in sorted(enumerate(added), key=lambda one: -one[1][0]):
            end = self.end_of_statement(at)
            text = f'{text[:end]}\n  {name}{k} = load{width}({place(pointer, offset)});{text[end:]}'
        self.in_kernel, self.kernel = len(added), text

    def end_of_statement(self, at):
        blank = re.sub(r'//[^\n]*', lambda found: ' ' * len(found[0]), self.kernel)
        brace = blank.index('{')
        return brace + 1 if at < brace else blank.index(';', at) + 1

    def to_program(self, loads):
        """Adds loads of bytes of which the kernel has more."""
        after, done = collections.defaultdict(list), set()
        for k, size, pointer, offset in loads:
            for key in ((pointer, offset + j) for j in range(size)):
                if key not in done:
                    done.add(key)
                    after[k] += [f'%sx{key[0]}{key[1]:+d}:i8 = load {key[0]}{key[1]:+d}'] * max(0, self.mine[key] - self.theirs[key])
        self.in_program = sum(map(len, after.values()))
        self.write_program([line for k, row in enumerate(self.program) for line in (row, *after[k])])

    def write_program(self, rows):
        """The program with its scalars numbered anew, and its cost."""
        names, made = {}, []
        for row in rows:
            head = re.match(r'(%s\S+?):i\d+ = (.*)$', row)
            body = re.sub(r'%s\d+', lambda found: names[found[0]], head[2] if head else row)
            if head:
                new = f'%s{len(names)}' if head[1] not in names else f'%s{len(names)}'
                names[head[1] if head[1] not in names else f'{head[1]} {len(names)}'] = new
                body = f'{new}:{row[len(head[1]) + 1:].split(" = ")[0]} = {body}'
            made.append(body)
        words = made[-1].split(' ')
        words[2] = str(int(words[2]) + self.in_program)
        self.program = '\n'.join([*made[:-1], ' '.join(words), ''])
