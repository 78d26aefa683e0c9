"""Program texts taken apart: plain ones, guarded ones, looped ones and guarded loops, each into its first line, its checks and its bodies
(docs/program.md)."""
import re

# What stands after the first line of a text of each kind, in its order: the lines of `checks`; a body by what it is, after a line with
# that word alone where it ends with `:`; a closing line.
FORMS = {
    'program': ('body',),
    'guarded': ('checks', 'then:', 'else:', 'end checks'),
    'looped': ('block', 'rest:', 'end looped'),
    'guardedloop': ('checks', 'then:', 'else:', 'end checks', 'rest:', 'end looped'),
}
HEAD = re.compile(r'(\w+) (\w+)\((.*?)\)(?: times (\w+) step (.+) block (\d+))?$')
CHECK = re.compile(r'check disjoint (\w+)([+-]\d+) (\d+) (\w+)([+-]\d+) (\d+)$')


class Fault(Exception):
    """A text that is not taken, with the line."""


class Body:
    """The lines of a program after its first one: the number of the first of them in the text, and what stands after `end `."""

    def __init__(self, first, lines, end):
        self.first, self.lines, self.end = first, lines, end


class Text:
    """A text: its kind, name and parameters; `times`, `steps` and `block` of one with turns; its checks; its bodies by what they are."""

    def __init__(self, text):
        self.rows, self.at = text.rstrip('\n').split('\n'), 1
        head = HEAD.match(self.rows[0])
        if not head or head[1] not in FORMS or ('rest:' in FORMS[head[1]]) != (head[4] is not None):
            raise Fault(f'line 1: no program: {self.rows[0]}')
        self.kind, self.name, self.times, self.block = head[1], head[2], head[4], int(head[6] or 1)
        try:
            self.parameters = [tuple(part.split(': ')) for part in filter(None, head[3].split(', '))]
            self.steps = {name: int(step) for name, step in (part.split(' ') for part in (head[5] or '').split(', ') if part)}
        except ValueError:
            raise Fault(f'line 1: {self.rows[0]}') from None
        kinds = dict(self.parameters)
        if self.times and (not kinds.get(self.times, 'ptr').startswith('i') or any(kinds.get(name) != 'ptr' for name in self.steps)):
            raise Fault(f'line 1: times or step of no such parameter: {self.rows[0]}')
        self.checks, self.bodies = [], {}
        for part in FORMS[self.kind]:
            self.take(part)
        if self.at < len(self.rows):
            raise Fault(f'line {self.at + 1}: after the end: {self.rows[self.at]}')

    def row(self):
        if self.at == len(self.rows):
            raise Fault(f'line {self.at + 1}: the text ends')
        self.at += 1
        return self.rows[self.at - 1]

    def word(self, wanted):
        if self.row() != wanted:
            raise Fault(f'line {self.at}: {wanted!r} in place of {self.rows[self.at - 1]!r}')

    def take(self, part):
        """Reads what a form has at one place."""
        if part == 'checks':
            while self.at < len(self.rows) and self.rows[self.at].startswith('check '):
                self.checks.append(self.check(self.row()))
        elif part.startswith('end '):
            self.word(part + (f' {len(self.checks)}' if part == 'end checks' else ''))
        else:
            if part.endswith(':'):
                self.word(part[:-1])
            self.bodies[part.rstrip(':')] = self.body()

    def check(self, row):
        """A check as (pointer, offset, bytes, pointer, offset, bytes)."""
        found = CHECK.match(row)
        if not found or any((found[i], 'ptr') not in self.parameters for i in (1, 4)):
            raise Fault(f'line {self.at}: no check of two pointers: {row}')
        return found[1], int(found[2]), int(found[3]), found[4], int(found[5]), int(found[6])

    def body(self):
        first, lines = self.at + 1, []
        while not (row := self.row()).startswith('end cost '):
            lines.append(row)
        return Body(first, lines, row[4:])
