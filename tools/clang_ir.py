"""C as LLVM's textual IR, by clang and opt: few passes, which leave a function near its C and as one block, or those of -O2."""
import functools, os, re, shutil, subprocess

from time_limit import TooLong, limited

VERSIONS = [''] + [f'-{n}' for n in range(25, 13, -1)]
SEARCHED = '/usr/lib/llvm-{}/bin/{}'
FRONT = ['-S', '-emit-llvm', '-w', '-gline-tables-only', '-fno-discard-value-names', '-femit-all-decls', '-fno-vectorize',
         '-fno-slp-vectorize', '-fno-strict-aliasing', '-fno-stack-protector']
# One phi of a join becomes selects, a loop of a known count its turns. No instcombine: it makes narrow choices of clamps.
LIMITS = ['-inline-threshold=100000', '-unroll-threshold=200000', '-unroll-max-percent-threshold-boost=10000',
          '-unroll-full-max-count=1024', '-unroll-max-iteration-count-to-analyze=1024', '-two-entry-phi-node-folding-threshold=60', '-phi-node-folding-threshold=60',
          '-speculate-one-expensive-inst']
LOOPS = 'loop-simplify,lcssa,loop(loop-rotate),{}loop-simplify,lcssa,loop(indvars,loop-unroll-full),sroa,early-cse<memssa>'
PASSES = ('internalize,globaldce,cgscc(inline),function(sroa,early-cse,simplifycfg,instsimplify,' + LOOPS.format('simplifycfg,')
          + ',simplifycfg<bonus-inst-threshold=20;hoist-common-insts;sink-common-insts>,instsimplify,' + LOOPS.format('')
          + ',simplifycfg,instsimplify,sccp,simplifycfg,dse,adce)')


class Missing(Exception):
    """A program that is not there, or one that ended otherwise than it should."""


def version_of(path):
    """The version of LLVM that a program tells."""
    try:
        told = subprocess.run([path, '--version'], capture_output=True, text=True, errors='replace').stdout
    except OSError:
        return 0
    found = re.search(r'version (\d+)\.', told)
    return int(found.group(1)) if found else 0


def programs(name):
    """The paths of a program by the version of LLVM that it is of, the one that the PATH names first as the first."""
    found = {}
    for suffix in VERSIONS:
        for path in (shutil.which(name + suffix), SEARCHED.format(suffix[1:], name) if suffix else None):
            if path and os.path.exists(path):
                found.setdefault(version_of(path), path)
    return {version: path for version, path in found.items() if version >= 14}


@functools.cache
def both_programs():
    """clang and opt of one version of LLVM, 14 or later."""
    clangs, opts = programs('clang'), programs('opt')
    version = next((version for version in clangs if version in opts), None)
    if version is None:
        absent = f'opt of LLVM {next(iter(clangs))}' if clangs else 'clang of LLVM 14 or later'
        raise Missing(f'{absent} is not there (Debian: apt-get install clang-14 llvm-14)')
    return clangs[version], opts[version]


def all_programs():
    """Each clang, and the opt of its version or None."""
    opts = programs('opt')
    return [(path, opts.get(version)) for version, path in programs('clang').items()]


def output(words, given=None, seconds=120):
    """What a program writes in so many seconds of the processor; its first line of error where it fails."""
    try:
        ended = limited(words, seconds, input=given, capture_output=True, text=True, errors='surrogateescape')
    except TooLong as fault:
        raise Missing(str(fault))
    except OSError as fault:
        raise Missing(f'{words[0]}: {fault.strerror}')
    if ended.returncode:
        lines = [line for line in ended.stderr.split('\n') if 'error' in line] or ended.stderr.split('\n')
        raise Missing(f'{os.path.basename(words[0])} ended with {ended.returncode}: {lines[0][:300]}')
    return ended.stdout


def first_ir(clang, path, flags):
    """The IR that clang makes before any pass."""
    return output([clang, '-O2', '-Xclang', '-disable-llvm-passes', *FRONT, *flags, path, '-o', '-'])


def opened(text, name):
    """The text with the function seen from outside, and with nothing kept from being put in."""
    text = re.sub(r'^(attributes #\d+ = \{.*?)\bnoinline ', r'\1', text, flags=re.M)
    head = re.compile(r'^define (?:internal|private|linkonce_odr|linkonce|weak_odr|weak|available_externally) (?=[^\n(]*@"?'
                      + re.escape(name) + r'"?\()', re.M)
    return head.sub('define ', text)


def with_numbers(text, name, fixed):
    """The text with numbers in the place of parameters of the function."""
    found = re.search(r'^define [^\n(]*@"?' + re.escape(name) + r'"?\([^\n]*\n', text, re.M)
    end = text.find('\n}\n', found.end()) if found else -1
    if end < 0:
        return text
    body = text[found.end():end]
    for word, number in fixed.items():
        body = re.sub(r'(?<=[ (])%' + re.escape(word) + r'(?![\w.$-])', str(number), body)
    return text[:found.end()] + body + text[end:]


def few_passes(opt, text, name, seconds=120):
    """The IR of one function after the few passes, without what it does not use."""
    return output([opt, '-S', *LIMITS, f'-internalize-public-api-list={name}', f'-passes={PASSES}', '-', '-o', '-'], text, seconds)


def all_passes(clang, path, flags):
    """The IR of -O2, without vectors and without loops that are turned some turns at a time."""
    return output([clang, '-O2', *FRONT, '-mllvm', '-unroll-runtime=false', *flags, path, '-o', '-'])


def plain_ir(clang, path, flags, name=None):
    """The IR that clang makes before any pass, but that sums wrap, with the function, or all, seen from outside."""
    text = first_ir(clang, path, ['-fwrapv', *flags])
    if name:
        return opened(text, name)
    return re.sub('^define (?:internal|linkonce_odr|linkonce|available_externally) ', 'define ', text, flags=re.M)
