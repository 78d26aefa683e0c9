"""Kernels as their texts say them, places of their pointers at random, and memories."""
import re, subprocess


class Kernel:
    """A kernel or a loop: its text and own name, its parameters, from where to where a turn goes at each pointer, and the turns: the
    integer that counts them and the steps, none of a kernel."""

    def __init__(self, name, text):
        self.name, self.text = name, text
        text = re.sub(r'//[^\n]*', '', text)
        head = re.search(r'(?:kernel|loop)\s+(\w+)\s*\(([^)]*)\)(?:\s*times\s+(\w+)\s+step([^{]*))?', text)
        self.own_name, self.times = (head[1], head[3]) if head else ('', None)
        self.steps = {word: int(step) for word, step in (part.split() for part in (head and head[4] or '').split(',') if part.strip())}
        self.parameters = []
        for part in filter(str.strip, (head[2] if head else '').split(',')):
            word, _, kind = part.partition(':')
            self.parameters.append((word.strip(), kind.split()[-1] if kind.split() else '', 'noalias' in kind))
        self.reach = {}
        for width, pointer, sign, offset in re.findall(r'(?:load|store)(8|16|32|64)\s*\(\s*(\w+)\s*(?:([+-])\s*(\d+))?', text):
            at = int(sign + offset) if offset else 0
            low, high = self.reach.get(pointer, (at, at))
            self.reach[pointer] = (min(low, at), max(high, at + int(width) // 8))

    def reach_of(self, word, turns):
        """From where to where a pointer goes in so many turns."""
        low, high = self.reach.get(word, (0, 0))
        return low, high + self.steps.get(word, 0) * max(turns - 1, 0)

    def turns(self, text, rng):
        """A number of turns about the blocks of a text of a loop; 1 of a kernel."""
        if not self.times:
            return 1
        block = int(re.search(r'block (\d+)$', text.split('\n')[0])[1])
        most = min(80, 2**int(dict((w, k) for w, k, _ in self.parameters)[self.times][1:]) - 1)
        return min(most, rng.choice([0, 1, block - 1, block, block + 1, 3 * block + 2, rng.randrange(81)]))

    def layout(self, rng, aligned, turns=1):
        """Places that respect noalias in so many turns, and the size of the memory; with `aligned` no two pointers meet, and all are
        multiples of 64."""
        places, taken, end = {}, [], rng.randrange(64)
        for word, kind, alone in self.parameters:
            if kind != 'ptr':
                continue
            low, high = self.reach_of(word, turns)
            others = [place for place in places if not alone and not aligned and not taken[list(places).index(place)]]
            if others and rng.random() < 0.6:
                start = max(0, places[rng.choice(others)] + rng.randrange(-20, 40)) + max(0, -low)
                free = all(start + high <= a or b <= start + low for a, b in filter(None, taken))
            else:
                free = False
            if not free:
                start = max(0, end + rng.randrange(32) - low)
                start = start + -start % 64 if aligned else start
            places[word] = start
            taken.append((start + low, start + high) if alone else None)
            end = max(end, start + high)
        return places, end + rng.randrange(40)


def random_memory(size, rng):
    kind = rng.randrange(3)
    if kind == 0:
        return rng.randbytes(size)
    few = [0, 1, 2, 127, 128, 254, 255] if kind == 1 else [0, 255, rng.randrange(256)]
    return bytes(rng.choice(few) if rng.random() < 0.8 else rng.randrange(256) for _ in range(size))


def run_vegen(binary, words, folder):
    return subprocess.run([binary, *words], cwd=folder, capture_output=True)
