"""What the tests of the tool share: runs of the command, folders that must stay as they were, and the count of what held."""
import contextlib
import os
import re
import shutil
import struct
import subprocess
import sys
import tempfile

ROOT = os.path.dirname(os.path.dirname(os.path.dirname(os.path.abspath(__file__))))
PROGRAMS = os.path.abspath(sys.argv[1]) if len(sys.argv) > 1 else os.path.join(ROOT, 'target', 'programs')
PACKS = int(sys.argv[2]) if len(sys.argv) > 2 else 2000
TOOL = os.path.join(ROOT, 'tools', 'tonekit')
sys.path[:0] = [os.path.join(ROOT, 'tools'), os.path.join(ROOT, 'examples')]
MEGABYTES = 5 * 1024 * 1024
COUNTS = {'passed': 0, 'failed': 0}
# As a user's: Python keeps its buffers.
ENVIRONMENT = {name: value for name, value in os.environ.items() if not name.startswith('PYTHON')}
ENVIRONMENT.update(TONEKIT_PROGRAMS=PROGRAMS, LC_ALL='C.UTF-8')
os.environ['TONEKIT_PROGRAMS'] = PROGRAMS


def expect(name, holds, found=''):
    """Counts one fact; says which one does not hold."""
    COUNTS['passed' if holds else 'failed'] += 1
    if not holds:
        print(f'FAILED {name}: {str(found)[:600]}', flush=True)


def content(*names):
    with open(os.path.join(ROOT, *names), 'rb') as file:
        return file.read()


def header_constants():
    """The numbers of include/tonekit.h by their names."""
    header = content('include', 'tonekit.h').decode()
    return {name: int(value, 0) for name, value in re.findall(r'TONEKIT_(\w+) = (0x[0-9a-fA-F]+|[0-9]+)', header)}


def put(folder, name, data):
    path = os.path.join(folder, name)
    with open(path, 'wb') as file:
        file.write(data if isinstance(data, bytes) else data.encode())
    return path


PACK, SHEET, QUERY = (content('examples', f'sample.{of}') for of in ('pack', 'sheet', 'query'))
# The sample's query as a cold one, kind 55 behind its record.
COLD = QUERY[:46] + b'\x37' + QUERY[46:]
CSV, TEXT = content('examples', 'sample.csv').decode(), content('examples', 'sample.pack.txt').decode()
# What makes the sample's query of a track.
SAID = ['--accent', '2', '--tone', '3', '--prev', '4', '--final', '--floor', '7', '--ceil', '19']


class Done:
    """How a command ended: status, standard output, and the words on standard error."""

    def __init__(self, done):
        self.status, self.out = done.returncode, done.stdout or b''
        self.err = (done.stderr or b'').decode('utf-8', 'replace')

    def __str__(self):
        return f'status {self.status}, out {self.out[:300]!r}, err {self.err[:500]!r}'


def tonekit(*words, data=b'', tool=TOOL, **more):
    """Runs the tool, without the packages of the machine, which it does not need: that halves the time of its start."""
    more = {'env': ENVIRONMENT, 'stdout': subprocess.PIPE, 'stderr': subprocess.PIPE, 'timeout': 100, **more}
    return Done(subprocess.run([sys.executable, '-B', '-S', tool, *words], input=data, **more))


@contextlib.contextmanager
def folder():
    path = tempfile.mkdtemp(prefix='tonekit-')
    try:
        yield path
    finally:
        shutil.rmtree(path)


def listing(path):
    """Every file of a folder with its bytes."""
    out = {}
    for name in sorted(os.listdir(path)):
        whole = os.path.join(path, name)
        if os.path.isfile(whole):
            with open(whole, 'rb') as file:
                out[name] = file.read()
        else:
            out[name] = None
    return out


def refusal(done, status, *words):
    """Whether a command ended with a status and these words on standard error, without a word of Python's."""
    return done.status == status and all(word in done.err for word in words) and 'Traceback' not in done.err


def expect_refused(name, at, words, status, *told):
    """A command that fails so, and leaves its folder as it was."""
    before = listing(at)
    done = tonekit(*words, cwd=at)
    expect(name, refusal(done, status, *told), done)
    expect(f'{name}: nothing is left behind', listing(at) == before, set(listing(at)) ^ set(before))


def changed(data, place, *replaced):
    """The bytes with others at a place."""
    new = b''.join(replaced)
    return data[:place] + new + data[place + len(new):]


def f32(*values):
    return struct.pack(f'<{len(values)}f', *values)
