"""Ways in which a kernel may be written so that rows of it are packed, each tried: no promise that it means the same is made here."""
import kernel_text
from kernel_text import changed


def width_of(tree, widths):
    """The width of an expression in bits; of a comparison 1."""
    kind = tree[0]
    if kind == 'name':
        return widths[tree[1]]
    if kind == 'number':
        return tree[2]
    if kind == 'load':
        return tree[1]
    if kind == 'two':
        return width_of(tree[2], widths)
    if tree[1] in ('eq', 'slt', 'ult'):
        return 1
    if tree[1][:4] in ('zext', 'sext', 'trun'):
        return int(tree[1][5 if tree[1].startswith('trunc') else 4:])
    return width_of(tree[3] if tree[1] == 'select' else tree[2], widths)


def widths_in(kernel):
    """The widths of parameters and of names."""
    widths = {name: int(kind[1:]) for name, kind in kernel.parameters if not kind.endswith('ptr')}
    for statement in kernel.statements:
        if statement.name is not None:
            widths[statement.name] = width_of(statement.value, widths)
    return widths


class Narrow:
    """An expression computed in so many bits where it was computed in more."""

    def __init__(self, kernel, bits):
        self.kernel, self.bits, self.widths = kernel, bits, widths_in(kernel)
        self.parameters = {name for name, _ in kernel.parameters}

    def made(self):
        """The kernel in so many bits; None where it stores more."""
        if any(statement.is_store() and statement.width > self.bits for statement in self.kernel.statements):
            return None
        statements = []
        for statement in self.kernel.statements:
            statements.append(statement.with_value(self.form(statement.value)))
        made = self.kernel.with_statements(statements)
        return made if made.text() != self.kernel.text() else None

    def cut(self, tree, width):
        return tree if width <= self.bits else ('call', f'trunc{self.bits}', tree)

    def form(self, tree):
        kind, width = tree[0], width_of(tree, self.widths)
        if kind == 'number':
            return tree if width <= self.bits else self.number(tree)
        if kind == 'load':
            return self.cut(tree, width)
        if kind == 'name':
            return self.cut(tree, width) if tree[1] in self.parameters else tree
        if kind == 'two':
            return ('two', tree[1], self.form(tree[2]), self.form(tree[3]))
        if tree[1][:4] in ('zext', 'sext', 'trun'):
            return self.resized(tree, width)
        return (*tree[:2], *(part if isinstance(part, int) else self.form(part) for part in tree[2:]))

    def number(self, tree):
        value = tree[1] % 2**tree[2]
        value = value - 2**tree[2] if value >= 2**(tree[2] - 1) else value
        return ('number', value % 2**self.bits, self.bits)

    def resized(self, tree, width):
        inner = width_of(tree[2], self.widths)
        before, after = min(inner, self.bits), min(width, self.bits)
        part = self.form(tree[2])
        if before == after:
            return part
        word = 'trunc' if after < before else tree[1][:4]
        return ('call', f'{word}{after}', part)


def narrowed(bits):
    return lambda kernel: Narrow(kernel, bits).made()


def loads_at_uses(kernel):
    """Each name that is a load, or a load extended, written out where it is used; None where there is none."""
    known, statements = {}, []
    for statement in kernel.statements:
        value = changed(statement.value, lambda tree: known.get(tree[1], tree) if tree[0] == 'name' else tree)
        inner = value[2] if value[0] == 'call' and value[1][:4] in ('zext', 'sext') else value
        if statement.name is not None and inner[0] == 'load':
            known[statement.name] = value
        else:
            statements.append(statement.with_value(value))
    return kernel.with_statements(statements) if known else None


def addends(tree):
    return [*addends(tree[2]), *addends(tree[3])] if tree[0] == 'two' and tree[1] == '+' else [tree]


def in_pairs(parts):
    """A sum of neighbours, of sums of neighbours."""
    while len(parts) > 1:
        parts = [('two', '+', *parts[i:i + 2]) if i + 1 < len(parts) else parts[i] for i in range(0, len(parts), 2)]
    return parts[0]


def sums_in_pairs(kernel):
    """Each sum of three and more written as the sum of neighbours; None where there is none, or it is written so."""
    def change(tree):
        return in_pairs(addends(tree)) if tree[0] == 'two' and tree[1] == '+' and len(addends(tree)) > 2 else tree
    made = kernel.with_statements([statement.with_value(changed(statement.value, change)) for statement in kernel.statements])
    return made if made.text() != kernel.text() else None


def rows_alone(kernel, stores):
    """The kernel with these stores alone, by their places among the stores, and the names that they need."""
    wanted, kept = set(), []
    number = sum(statement.is_store() for statement in kernel.statements)
    for statement in reversed(kernel.statements):
        if statement.is_store():
            number -= 1
            if number not in stores:
                continue
        elif statement.name not in wanted:
            continue
        kept.append(statement)
        changed(statement.value, lambda tree: wanted.add(tree[1]) or tree if tree[0] == 'name' else tree)
    return kernel.with_statements(kept[::-1])
