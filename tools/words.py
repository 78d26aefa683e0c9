"""What the tools of this folder share in reading their words: `--help` prints the text of the tool, and what is wrong with the words is
told in one line that begins with its name, with status 2.

Words are completed by argcomplete (Debian's python3-argcomplete), where it is installed.
"""
import argparse, os, re, shutil, sys

ROOT = os.path.normpath(os.path.join(os.path.dirname(os.path.abspath(__file__)), '..'))
BUILT = os.path.join(ROOT, 'crates', 'vegen', 'out', 'vegen')


class Words(argparse.ArgumentParser):
    """A reader of words that knows the text of its tool."""

    def __init__(self, text, **more):
        super().__init__(prog=os.path.basename(sys.argv[0]), allow_abbrev=False, **more)
        self.text = text

    def format_help(self):
        return self.text.strip() + '\n'

    def error(self, message):
        self.exit(2, f'{self.prog}: {one_line(message)} (--help tells more)\n')

    def numbers(self, **defaults):
        """Options that take a number from 1 on, by the words and what they are where none is given."""
        for name, default in defaults.items():
            self.add_argument('--' + name, type=count, default=default, metavar='N')

    def read(self, words=None):
        """The words read; those of the command line where none are handed in."""
        try:
            import argcomplete
            argcomplete.autocomplete(self)
        except ImportError:
            pass
        return self.parse_args(words)


def one_line(text):
    """A text in which what cannot be printed, an end of a line among it, stands as its escape."""
    return ''.join(sign if sign.isprintable() else sign.encode('unicode_escape').decode() for sign in text)


def number(word):
    """A number in decimal digits."""
    if not re.fullmatch(r'[0-9]+', word):
        raise argparse.ArgumentTypeError(f'{word!r} is no number')
    return int(word)


def count(word):
    """A number from 1 on."""
    if not re.fullmatch(r'[0-9]+', word) or int(word) == 0:
        raise argparse.ArgumentTypeError(f'{word!r} is no number from 1 on')
    return int(word)


def file(word):
    """The path of a file that is there."""
    if not os.path.isfile(word):
        raise argparse.ArgumentTypeError(f'there is no file {word!r}')
    return word


def program(word):
    """The whole path of a program that can be run: that of a file, or of one on the PATH."""
    if os.path.isfile(word) and os.access(word, os.X_OK):
        return os.path.abspath(word)
    found = shutil.which(word) if os.sep not in word else None
    if found is None:
        raise argparse.ArgumentTypeError(f'there is no program {word!r}')
    return found


def built_program():
    """The program that `rt run` or the gate left in crates/vegen/out, or `vegen` of the PATH; None where there is neither.

    Below tools/vegen, which sets VEGEN_SCRIPT, the one of the PATH is that script itself, and counts for none.
    """
    if os.access(BUILT, os.X_OK):
        return BUILT
    return None if 'VEGEN_SCRIPT' in os.environ else shutil.which('vegen')
