"""Runs one program with limits, in the place of this process: of the time of the processor, of memory, of the size of what it writes,
and of the files that it sees.

usage: limited.py SECONDS MEMORY OUTPUT [--sees PATH ..] [--writes PATH ..] -- PROGRAM WORD ..

MEMORY and OUTPUT are bytes. Where Linux has Landlock the program reads below the paths behind `--sees` and `--writes` alone, and writes
below the latter alone; elsewhere all that the user may. It is started by `processes.py` for each program, as threads cannot do this between
fork and exec.
"""
import ctypes, os, resource, signal, struct, sys

CREATE, ADD, RESTRICT = 444, 445, 446
EXECUTE, WRITE, READ, LIST, TRUNCATE = 1, 2, 4, 8, 1 << 14
MAKES = sum(1 << bit for bit in range(4, 13))
FILES_ALONE = EXECUTE | WRITE | READ | TRUNCATE
BY_VERSION = {1: (1 << 13) - 1, 2: (1 << 14) - 1, 3: (1 << 15) - 1}
NO_NEW_PRIVILEGES, PARENT_DEATH = 38, 1


def landlock_version(libc):
    """The version of Landlock that this system has; 0 where there is none."""
    return max(0, libc.syscall(CREATE, None, 0, 1))


def see_only(libc, sees, writes):
    """From here on this process reads below both lists of paths, and writes below the second. Nothing changes without Landlock."""
    version = landlock_version(libc)
    if version == 0:
        return
    handled = BY_VERSION[min(version, 3)]
    ruleset = libc.syscall(CREATE, ctypes.create_string_buffer(struct.pack('=Q', handled), 8), 8, 0)
    for paths, allowed in ((sees, EXECUTE | READ | LIST), (writes, EXECUTE | READ | LIST | WRITE | MAKES | TRUNCATE)):
        for path in paths:
            add_rule(libc, ruleset, path, allowed & handled)
    libc.prctl(NO_NEW_PRIVILEGES, 1, 0, 0, 0)
    if libc.syscall(RESTRICT, ruleset, 0):
        sys.exit('limited: the files could not be shut off')
    os.close(ruleset)


def add_rule(libc, ruleset, path, allowed):
    """Allows what stands below a path; one that is not there is left out."""
    try:
        opened = os.open(path, os.O_PATH | os.O_CLOEXEC)
    except OSError:
        return
    if not os.path.isdir(path):
        allowed &= FILES_ALONE
    libc.syscall(ADD, ruleset, 1, ctypes.create_string_buffer(struct.pack('=Qi', allowed, opened), 12), 0)
    os.close(opened)


def limit(seconds, memory, output):
    for what, most in ((resource.RLIMIT_CPU, seconds), (resource.RLIMIT_AS, memory), (resource.RLIMIT_FSIZE, output),
                       (resource.RLIMIT_CORE, 0)):
        hard = resource.getrlimit(what)[1]
        most = most if hard == resource.RLIM_INFINITY else min(most, hard)
        resource.setrlimit(what, (most, most))


def main(words):
    own, program = words[:words.index('--')], words[words.index('--') + 1:]
    paths = {'--sees': [], '--writes': []}
    for option, path in zip(own[3::2], own[4::2]):
        paths[option].append(path)
    libc = ctypes.CDLL(None, use_errno=True)
    libc.prctl(PARENT_DEATH, signal.SIGKILL, 0, 0, 0)
    # Python ignores these two, and what is ignored stays so over exec
    signal.signal(signal.SIGXFSZ, signal.SIG_DFL)
    signal.signal(signal.SIGPIPE, signal.SIG_DFL)
    see_only(libc, paths['--sees'], paths['--writes'])
    limit(*map(int, own[:3]))
    os.execv(program[0], program)


if __name__ == '__main__':
    main(sys.argv[1:])
