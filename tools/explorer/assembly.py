"""What compilers make of C, as text: the instructions of one function, and how many there are."""
import re

import vegen_c

WANTED = ['-std=gnu17', '-O3', '-w', '-S', '-masm=intel', '-fno-asynchronous-unwind-tables', '-fno-stack-protector',
          '-fdiagnostics-color=never']
# clang reads assembler in C by itself, files that it names among it, unless it leaves that to an assembler, which is never run
OWN = {'gcc': [], 'clang': ['-fno-integrated-as', '-fno-caret-diagnostics']}


def machine(entries, extensions):
    """Words that name what the entries of an instruction file need, those of some extensions where any are named."""
    wanted = {feature for entry in entries.values() if not extensions or entry.extension in extensions
              for feature in vegen_c.FEATURES.get(entry.extension, ())}
    return ['-m' + feature for feature in vegen_c.ORDER if feature in wanted] or ['-msse2']


def words(kind, compiler, flags, file):
    """The words that compile a file of C to assembly on standard output."""
    return [compiler, *WANTED, *OWN[kind], *flags, file, '-o', '-']


class Listing:
    """The lines of a function in a text of assembly without directives, and the number of its instructions; `is_there` tells whether the
    text has the function."""

    def __init__(self, text, name):
        found = re.search(rf'^{re.escape(name)}:.*?$(.*?)(?=^\s*\.size\s+{re.escape(name)},|\Z)', text, re.M | re.S)
        self.is_there, lines = bool(found), []
        for line in found[1].split('\n') if found else []:
            line = re.sub(r'\s*#.*$', '', line).rstrip()
            if line and not re.match(r'\s+\.', line):
                lines.append(line)
        used = set(re.findall(r'\.L\w+', '\n'.join(line for line in lines if line[0].isspace())))
        self.lines = [aligned(line) for line in lines if line[0].isspace() or line.rstrip(':') in used]
        self.count = sum(line[0].isspace() for line in self.lines)

    def text(self):
        return ''.join(line + '\n' for line in self.lines)


def aligned(line):
    """An instruction with its operands in one column with those of others; a label as it is."""
    name, _, operands = line.strip().partition('\t')
    return f'    {name:<11} {operands.expandtabs(1)}'.rstrip() if line[0].isspace() else line
