"""What faces/machine says of this machine, for Python: how it runs, makes and reads what is for x86-64 Linux."""
import functools, os, subprocess, sys

MACHINE = os.path.join(os.path.dirname(os.path.abspath(__file__)), '../faces/machine')


@functools.lru_cache(None)
def words(name):
    """The words of one of its names; none where there is no such tool here."""
    said = subprocess.run([MACHINE, name], stdout=subprocess.PIPE, text=True)
    if said.returncode: sys.exit(said.returncode)  # it has said why
    return tuple(said.stdout.splitlines())


def elsewhere(): return ''.join(words('elsewhere'))
def not_tried(what): print('faces: not tried on %s: %s' % (elsewhere(), what), flush=True)


@functools.lru_cache(None)
def command(path):
    """The command that runs a program: with the kit's C library where the system's is too old for it."""
    if elsewhere(): return [*words('run'), path]
    if not subprocess.run([path, 'a', 'b', 'c'], stdin=subprocess.DEVNULL, capture_output=True).returncode: return [path]
    kit = os.path.dirname(os.path.dirname(subprocess.run(['rt', 'doc'], capture_output=True, text=True).stdout.strip())) + '/toolchain/lib'
    return [kit + '/ld-linux-x86-64.so.2', '--library-path', kit, path]
