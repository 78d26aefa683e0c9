"""Lines of proofs that are too long to read."""
import os

import words as head

COLUMNS = 120


def long_lines(crate):
    """How many lines of the proofs of a crate have more than 120 columns and import nothing."""
    count = 0
    for at, _, names in os.walk(os.path.join(head.ROOT, 'crates', crate, 'proofs')):
        for name in names:
            if name.endswith('.antt'):
                with open(os.path.join(at, name), encoding='utf-8') as file:
                    count += sum(1 for line in file if len(line.rstrip('\n')) > COLUMNS and not line.startswith('use '))
    return count
