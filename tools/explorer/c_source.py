"""C that a page handed in: what of it would read files elsewhere, which functions it has, and kernels as plain C."""
import re

import kernel_text

HEADERS = set('''alloca assert ctype endian errno float immintrin inttypes iso646 limits math nmmintrin smmintrin stdalign stdarg stdbool
stddef stdint stdio stdlib string strings tmmintrin wmmintrin x86intrin xmmintrin emmintrin pmmintrin ammintrin'''.split())
# Where in the text a directive stands is not asked: also one in a comment or a string has to be clean. So nothing rests on reading comments
# and strings as a compiler reads them. `%:` is another spelling of `#`.
MOST, LONGEST_BLANK = 64 * 1024, 400
SIGN = re.compile(r'#|%:')
DIRECTIVE, OPERAND = re.compile(r'(include\w*|import|embed)\b'), re.compile(r'<[^<>\n]*>|"[^"\n]*"|[^\n]*')
ASKING = re.compile(r'\b(__has_include|__has_include_next|__has_embed|_Pragma)\b'
                    r'|\bpragma\b[^\n]*?\b(dependency|pch_preprocess|include_alias)\b')
STRING_OR_COMMENT = re.compile(r'"(?:\\.|[^"\\\n])*"|\'(?:\\.|[^\'\\\n])*\'|//[^\n]*|/\*.*?(?:\*/|\Z)', re.S)
WORDS = set('''if for while switch return sizeof do else case goto default typedef struct union enum __attribute__ __attribute asm __asm
__asm__'''.split())
FUNCTION = re.compile(r'\b(\w+)\s*\(([^(){};]*)\)\s*\{')


class Refused(Exception):
    """C that is not compiled: the message, and line and column from 1."""

    def __init__(self, message, line, column=1):
        super().__init__(message)
        self.message, self.line, self.column = message, line, column


class Spliced:
    """A text with the ends of lines that a `\\` takes away taken out, and the places that its characters had before."""

    def __init__(self, text):
        self.before, self.text, self.moved, end = text, '', [(0, 0)], 0
        for found in re.finditer(r'\\[ \t]*\n', text):
            self.text += text[end:found.start()]
            end = found.end()
            self.moved.append((len(self.text), end))
        self.text += text[end:]

    def place(self, at):
        """Line and column, from 1, of a character."""
        start, before = max(pair for pair in self.moved if pair[0] <= at)
        front = self.before[:before + at - start]
        return front.count('\n') + 1, len(front) - front.rfind('\n')


def check(text):
    """Refuses C that reads files elsewhere: an `#include` of anything but a header of the system, and what asks about files."""
    if len(text) > MOST:
        raise Refused(f'C of more than {MOST} characters is refused', 1)
    odd = re.search(r'[^\t\n\x20-\x7e\x80-\U0010ffff]|\?\?[=/]', text)
    whole = Spliced(text)
    if odd:
        raise Refused('control characters and trigraphs are refused', *Spliced(text.replace('\\', ' ')).place(odd.start()))
    for sign in SIGN.finditer(whole.text):
        at = after_blanks(whole.text, sign.end())
        found = DIRECTIVE.match(whole.text, at) if at is not None else None
        operand = after_blanks(whole.text, found.end()) if found else at
        if operand is None:
            raise Refused('so long a comment in a directive is refused', *whole.place(sign.start()))
        if found:
            check_include(found[1], OPERAND.match(whole.text, operand)[0].strip(), whole.place(sign.start()))
    found = ASKING.search(whole.text)
    if found:
        raise Refused(f'{found[1] or "#pragma " + found[2]} is refused: it asks about files', *whole.place(found.start()))


def after_blanks(text, at):
    """The place after blanks and comments; None where they are too long to be meant."""
    end = at + LONGEST_BLANK
    while at < end:
        if text[at:at + 1].isspace():
            at += 1
        elif text.startswith('/*', at):
            closed = text.find('*/', at + 2, end)
            at = closed + 2 if closed >= 0 else end
        elif text.startswith('//', at):
            closed = text.find('\n', at, end)
            at = closed + 1 if closed >= 0 else end
        else:
            return at
    return None


def check_include(directive, operand, place):
    found = re.fullmatch(r'<([^<>\n]*)>|"([^"\n]*)"', operand)
    if directive != 'include' or not found:
        raise Refused(f'#{directive} {operand[:60]} is refused: only #include <HEADER.h> with a header of the system is taken', *place)
    name = found[1] if found[1] is not None else found[2]
    if name.startswith('/'):
        raise Refused(f'#include of an absolute path is refused: {name[:80]}', *place)
    if '..' in name.split('/'):
        raise Refused(f'#include of a path with .. is refused: {name[:80]}', *place)
    if name[-2:] != '.h' or name[:-2] not in HEADERS:
        raise Refused(f'#include of {name[:80]} is refused: only headers of the system are taken, as <stdint.h>', *place)


def without_comments(text):
    """The text with a blank in the place of each comment; lines stay lines."""
    return STRING_OR_COMMENT.sub(lambda found: found[0] if found[0][0] in '"\'' else ' ' + '\n' * found[0].count('\n'), text)


def functions(text):
    """The names of the functions that C defines, in their order, as far as one sees without a compiler."""
    bare = re.sub(r'"(?:\\.|[^"\\\n])*"', '""', without_comments(text))
    return list(dict.fromkeys(found[1] for found in FUNCTION.finditer(bare) if found[1] not in WORDS))


class PlainC:
    """A kernel or a loop as plain C, a statement a line, which a compiler may put into vectors as it likes."""

    def __init__(self, kernel):
        self.kernel, self.widths, self.helpers = kernel, {}, {}
        for name, kind in kernel.parameters:
            if not kind.endswith('ptr'):
                self.widths[name] = int(kind[1:])

    def text(self):
        lines = [line for statement in self.kernel.statements for line in self.statement(statement)]
        names = ', '.join(self.parameter(name, kind) for name, kind in self.kernel.parameters)
        head = f'void {self.kernel.name}_plain({names or "void"})'
        if self.kernel.is_loop():
            lines = self.turns(lines)
        body = '\n'.join('    ' + line for line in lines)
        return ('#include <stdint.h>\n#include <string.h>\n\n' + '\n'.join(self.helpers.values()) + ('\n' if self.helpers else '')
                + f'{head}\n{{\n{body}\n}}\n')

    def turns(self, lines):
        found = re.match(r' times (\w+) step (.*)', self.kernel.behind)
        steps = dict(part.split() for part in found[2].split(',') if part.strip())
        moves = [f'p_{name} += {step};' for name, step in steps.items()]
        return [f'for (uint64_t turn = 0; turn < v_{found[1]}; turn++) {{', *('    ' + line for line in (*lines, *moves)), '}']

    def parameter(self, name, kind):
        if kind.endswith('ptr'):
            return f'unsigned char *{"restrict " if kind.startswith("noalias") else ""}p_{name}'
        return f'uint{kind[1:]}_t v_{name}'

    def statement(self, statement):
        value, width = self.expression(statement.value)
        if statement.is_store():
            return [f'{self.helper("store", statement.width)}(p_{statement.pointer} + {statement.offset}, {value});'
                    .replace('+ -', '- ')]
        self.widths[statement.name] = width
        return [f'{self.type(width)} v_{statement.name} = {value};']

    def type(self, width):
        return 'int' if width == 1 else f'uint{width}_t'

    def helper(self, word, width):
        name, kind = f'{word}{width}', f'uint{width}_t'
        if word == 'load':
            text = (f'static inline {kind} {name}(const unsigned char *p)\n{{\n    {kind} x;\n    memcpy(&x, p, sizeof x);\n'
                    '    return x;\n}\n')
        else:
            text = f'static inline void {name}(unsigned char *p, {kind} x)\n{{\n    memcpy(p, &x, sizeof x);\n}}\n'
        self.helpers.setdefault(name, text)
        return name

    def choice(self, word, width):
        """The name of a helper for the lesser or the greater of two numbers."""
        name, kind, cast = f'{word}{width}', f'uint{width}_t', f'(int{width}_t)' if word[0] == 's' else ''
        self.helpers.setdefault(name, f'static inline {kind} {name}({kind} x, {kind} y)\n{{\n'
                                      f'    return {cast}x {"<" if word[1:] == "min" else ">"} {cast}y ? x : y;\n}}\n')
        return name

    def expression(self, tree):
        """C of an expression, in parentheses where it needs them, and its width. Sums are made without a sign, so that they wrap."""
        kind = tree[0]
        if kind == 'name':
            return f'v_{tree[1]}', self.widths[tree[1]]
        if kind == 'number':
            return f'UINT{tree[2]}_C({tree[1] % 2**tree[2]})', tree[2]
        if kind == 'load':
            return f'{self.helper("load", tree[1])}(p_{tree[2]} + {tree[3]})'.replace('+ -', '- '), tree[1]
        if kind == 'two':
            (left, width), (right, _) = self.expression(tree[2]), self.expression(tree[3])
            # a product of two words as `int` may leave its range: one factor is `unsigned`
            return self.cut(f'{"1u * " if tree[1] == "*" and width < 32 else ""}{left} {tree[1]} {right}', width), width
        return self.call(tree[1], tree[2:])

    def cut(self, text, width):
        return f'(uint{width}_t)({text})'

    def call(self, word, parts):
        made = [part if isinstance(part, int) else self.expression(part) for part in parts]
        first, width = made[0]
        if word in ('shl', 'lshr', 'ashr'):
            left = f'(int{width}_t){first}' if word == 'ashr' else first if width > 16 else f'1u * {first}'
            return self.cut(f'{left} {"<<" if word == "shl" else ">>"} {made[1]}', width), width
        if word[:4] in ('sext', 'zext', 'trun'):
            to = int(re.search(r'\d+$', word)[0])
            return (self.cut(f'(int{width}_t){first}', to) if word.startswith('sext') else f'(uint{to}_t){first}'), to
        if word == 'select':
            return f'({first} ? {made[1][0]} : {made[2][0]})', made[1][1]
        second = made[1][0]
        if word == 'eq':
            return f'({first} == {second})', 1
        one, two = (f'(int{width}_t){first}', f'(int{width}_t){second}') if word[0] == 's' else (first, second)
        if word in ('slt', 'ult'):
            return f'({one} < {two})', 1
        return f'{self.choice(word, width)}({first}, {second})', width


def plain_c(text):
    """A text of a kernel, in bytes, as plain C."""
    return PlainC(kernel_text.read_kernel(text)).text()
