"""Runs of other programs with a limit of the processor's time, so that other work on the machine changes no answer."""
import errno, os, resource, shutil, signal, subprocess


class TooLong(Exception):
    """A run that was ended as it took more than it may."""


def limited(words, seconds, **more):
    """A run that may take so many seconds of the processor, each process of it, or as many as this one may where those are fewer; complains
    with TooLong where it takes more."""
    most = resource.getrlimit(resource.RLIMIT_CPU)[1]
    seconds = seconds if most == resource.RLIM_INFINITY else min(seconds, most)
    if shutil.which(words[0]) is None:
        raise FileNotFoundError(errno.ENOENT, os.strerror(errno.ENOENT), words[0])
    ended = subprocess.run(['prlimit', f'--cpu={seconds}', *words], **more)
    if ended.returncode == -signal.SIGKILL:
        raise TooLong(f'{os.path.basename(words[0])} took more than {seconds} seconds')
    return ended
