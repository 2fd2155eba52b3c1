"""The proved programs: where they are, and what they answer. Every answer of the tool comes from one of them."""
import functools
import os
import subprocess

from .files import Failed, NoProgram, reason
from .layouts import KINDS
from .refusals import refusal_in

# The names that the toolchain gives where they differ.
BUILT = {'check': 'tonekit_check'}
SECONDS = 60


def folders(name):
    """Where a program is looked for: the folder that TONEKIT_PROGRAMS names and no other; else beside the tool, then in the
    checkout, last where the toolchain leaves it."""
    named = os.environ.get('TONEKIT_PROGRAMS')
    if named:
        return [named]
    here = os.path.dirname(os.path.abspath(__file__))
    root = os.path.dirname(os.path.dirname(here))
    return [os.path.join(here, 'programs'), os.path.join(root, 'programs'), os.path.join(root, 'target', 'programs'),
            os.path.join(root, 'crates', BUILT.get(name, name), 'out')]


@functools.lru_cache(maxsize=None)
def find(name):
    """The path of a program."""
    for folder in folders(name):
        for built in (name, BUILT.get(name, name)):
            path = os.path.join(folder, built)
            if os.path.isfile(path):
                return path
    raise NoProgram(f'the program {name} is not there; looked in {", ".join(folders(name))}. tools/programs builds the programs, '
                    'and TONEKIT_PROGRAMS names their folder')


def run(name, data, *words):
    """What a program writes for these bytes."""
    path = find(name)
    try:
        done = subprocess.run([path, *words], input=data, capture_output=True, timeout=SECONDS)
    except OSError as error:
        raise NoProgram(f'the program {path} cannot be run: {reason(error)}') from None
    except subprocess.TimeoutExpired:
        raise Failed(f'the program {path} gave no answer in {SECONDS} s') from None
    if done.returncode or done.stderr:
        told = done.stderr.decode('utf-8', 'replace').strip()
        raise Failed(f'the program {path} failed, status {done.returncode}{": " + told if told else ""}')
    return done.stdout


def strange(name, out):
    return Failed(f'the program {find(name)} wrote {len(out)} bytes that are no answer of {name}')


@functools.lru_cache(maxsize=None)
def trust_check():
    """Input that loads makes `check` silent, as some other program would be; so it is first asked for an answer that is known."""
    if run('check', b'', 'pack') != bytes([52, 2, 0, 0, 0, 0]):
        raise NoProgram(f'the program {find("check")} is not the one that checks packs, sheets and queries')


def check(of, data):
    """The refusal of a pack, a sheet or a query, or nothing where it loads."""
    trust_check()
    out = run('check', data, of)
    if out and not refusal_in(out):
        raise strange('check', out)
    return refusal_in(out)


def record(name, data, kind):
    """The record of a kind that a program writes for these bytes, or its refusal: one of the two is nothing."""
    out = run(name, data)
    if refusal_in(out):
        return None, refusal_in(out)
    if len(out) != KINDS[kind].size or out[0] != kind:
        raise strange(name, out)
    return out, None


def shape(query):
    return record('shape', query, 51)


def judge(of, held, query):
    """Judges by a pack or a sheet that loads."""
    return record('station' if of == 'pack' else 'station_sheet', len(held).to_bytes(2, 'little') + held + query, 49)


def sheet(pack):
    """The sheet of a pack, or the refusal."""
    out = run('sheet', pack)
    if refusal_in(out):
        return None, refusal_in(out)
    if check('sheet', out):
        raise strange('sheet', out)
    return out, None
