"""Inputs one by one: each is checked by the proved programs, and refused in words with its name, the record and the place."""
import sys

from . import files, programs
from .explain import told
from .files import ENOUGH, Failed, NoProgram
from .refusals import Refused

CHECKED = ('pack', 'sheet', 'query')


def say(words=''):
    sys.stdout.write(f'{words}\n')


def complain(error):
    """Words on standard error, behind what was written before."""
    sys.stdout.flush()
    sys.stderr.write(f'{error}\n')


def refuse(name, refusal, data, of):
    """The refusal of an input, with what stands at its place."""
    raise Refused(name, told(refusal, data, of), refusal)


def load(name, of, data):
    """The bytes, which must be a pack, a sheet or a query."""
    refusal = programs.check(of, data)
    if refusal:
        refuse(name, refusal, data, of)
    return data


def loaded(name, of):
    """The bytes of a file that is a pack, a sheet or a query."""
    return load(name, of, files.read(name, ENOUGH))


def status_of(error):
    return 1 if isinstance(error, Refused) else 2


def each(names, act):
    """Does something for each input; the status is the greatest of theirs."""
    status = 0
    for name in names:
        try:
            act(name)
        except NoProgram:
            raise
        except (Refused, Failed) as error:
            complain(error)
            status = max(status, status_of(error))
    return status
