"""What tools/from-ir and tools/from-c share: their words, and a function of a text of IR as a kernel."""
import re, sys

import kernel_trial
import llvm_ir as ir
from llvm_kernel import Refusal, Translation
from llvm_loop import LoopTranslation
from words import Words, built_program, number, program

sys.setrecursionlimit(20000)


class Fault(Exception):
    """What ends a tool with one line."""


def reader_of(page, file):
    """A reader of the words that both tools take."""
    reader = Words(page)
    reader.add_argument('file', metavar=file)
    reader.add_argument('function', metavar='FUNCTION')
    for option in ('--rows', '--loop', '--noalias', '--both'):
        reader.add_argument(option, action='store_true')
    reader.add_argument('--stride', metavar='NAME=N', action='append', default=[])
    reader.add_argument('--try', metavar='N', type=number, default=0, dest='tries')
    reader.add_argument('--vegen', metavar='BINARY', type=program)
    reader.add_argument('--seed', metavar='S', type=number, default=1)
    return reader


def strides(words):
    """The numbers of `NAME=N` words, by name."""
    found = {}
    for word in words:
        name, sign, digits = word.partition('=')
        if not sign or not re.fullmatch(r'-?\d{1,20}', digits):
            raise Fault(f'--stride {word}: NAME=N with a number N is wanted')
        found[name] = int(digits)
    return found


def function_names(module):
    """Some names of the functions of a module, as the end of a line."""
    some = sorted(module.functions)
    return f'there are {", ".join(some[:8])}{", .." if len(some) > 8 else ""}' if some else 'there is none'


def translated(text, path, name, words, fixed):
    """The translation of a function of a text of IR."""
    try:
        module = ir.Module(text)
        if name not in module.functions:
            raise Fault(f'{path or words.file}: no function {name}; {function_names(module)}')
        if not module.little:
            raise Fault(f'{path or words.file}: the module is for a machine that stores the highest byte first')
        function = module.function(name)
        kind = LoopTranslation if words.loop else Translation
        return kind(module, function, path, words.rows, words.noalias, fixed, words.both).run()
    except ir.Malformed as fault:
        raise Fault(f'{path or "the IR of clang"}:{fault.line}: {fault.what}')
    except RecursionError:
        raise Fault(f'{path or "the IR of clang"}: nested too deep')


def written(text, path, words, fixed, notes):
    """The text of the kernel of a function, and its translation."""
    name = words.function
    try:
        made = translated(text, path, name, words, fixed)
        return made.text(notes), made
    except Refusal as refusal:
        raise Fault(f'{name}: {refusal}')


def vegen_path(given):
    """Where vegen is: as given, where the repository builds it, or on the PATH."""
    found = given or built_program()
    if not found:
        raise Fault('no vegen is built or on the PATH: (cd crates/vegen && rt run), or --vegen BINARY')
    return found


def beside(tool, words, text, made, source, programs):
    """Tries the kernel beside the function, with the first of the compilers that reads its IR."""
    vegen, failed = vegen_path(words.vegen), None
    for clang, opt in programs:
        try:
            wrong, met = kernel_trial.trial(made, text, source, clang, opt, vegen, words.tries, words.seed)
        except kernel_trial.Failed as fault:
            failed = failed or fault
            continue
        print(f'{tool}: {words.function}: {words.tries} memories, pointers meet in {met}: {len(wrong)} differences', file=sys.stderr)
        if wrong:
            raise Fault(f'{words.function}: {wrong[0]}')
        return
    raise Fault(f'{words.function}: --try: {failed or "clang is not there"}')
