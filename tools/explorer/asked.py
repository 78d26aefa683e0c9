"""What a page asks for, judged: a text, an instruction file by its name, and options."""
import re

EXTENSIONS = 'SSE2 SSE3 SSSE3 SSE4.1 SSE4.2 AVX AVX2 AVX_VNNI AVX512F AVX512BW'.split()
FLAGS = ('more', 'guard', 'rows', 'loop', 'noalias', 'both')
MOST_TEXT = 262144


class Wrong(Exception):
    """What a page asked for is none of what can be asked."""


class Asked:
    """A kernel or C with one of its functions, the instruction file, and the options of `compile` and of `from-c`."""

    def __init__(self, given):
        if not isinstance(given, dict):
            raise Wrong('an object is wanted')
        self.language = one_of(given, 'language', ('kernel', 'c'))
        self.text = word(given, 'text', MOST_TEXT)
        self.function = word(given, 'function', 64)
        if self.function and not re.fullmatch(r'[A-Za-z_]\w*', self.function, re.ASCII):
            raise Wrong('function: a name is wanted')
        self.library = word(given, 'library', 64)
        for name in FLAGS:
            setattr(self, name, given.get(name, False))
            if not isinstance(getattr(self, name), bool):
                raise Wrong(f'{name}: true or false is wanted')
        self.width = given.get('width')
        if self.width is not None and (type(self.width) is not int or not 1 <= self.width <= 4096):
            raise Wrong('width: a number from 1 to 4096 is wanted')
        self.extensions = words(given, 'extensions', EXTENSIONS)
        self.strides = words(given, 'strides')
        if any(not re.fullmatch(r'[A-Za-z_]\w{0,63}=-?\d{1,18}', stride, re.ASCII) for stride in self.strides):
            raise Wrong('strides: NAME=N is wanted')

    def options(self):
        """Those of `explain` and `compile`."""
        made = ['--more'] if self.more else []
        made += ['--width', str(self.width)] if self.width else []
        return made + [part for name in self.extensions for part in ('--with', name)]

    def options_of_c(self):
        """Those of `from-c`."""
        made = ['--' + name for name in ('rows', 'loop', 'noalias', 'both') if getattr(self, name)]
        return made + [part for stride in self.strides for part in ('--stride', stride)]


def word(given, name, most):
    value = given.get(name, '')
    if not isinstance(value, str) or len(value) > most:
        raise Wrong(f'{name}: a text of at most {most} characters is wanted')
    return value


def one_of(given, name, all_of):
    if given.get(name) not in all_of:
        raise Wrong(f'{name}: one of {", ".join(all_of)} is wanted')
    return given[name]


def words(given, name, all_of=None):
    value = given.get(name, [])
    if not isinstance(value, list) or len(value) > 16 or any(not isinstance(one, str) or all_of and one not in all_of for one in value):
        raise Wrong(f'{name}: a list of {"words" if all_of is None else " ".join(all_of)} is wanted')
    return list(dict.fromkeys(value))
