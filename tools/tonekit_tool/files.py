"""Files in and out: inputs are read up to a limit, outputs are written whole or not at all."""
import os
import stat
import sys

# No pack, sheet or query that loads is longer than 13,338 bytes, and the programs' answers depend on no more than this much.
ENOUGH = 65536
# No text or file of records needs more.
MOST = 64 * 1024 * 1024


class Failed(Exception):
    """The tool was used wrongly or the machine failed: status 2. Says what, with the name of the file."""


class NoProgram(Failed):
    """A program is not there or cannot be run: no further input can be answered either."""


def reason(error):
    return error.strerror or str(error)


def read_standard(most):
    """The bytes of standard input, which can be read once."""
    if sys.stdin is None or sys.stdin.closed:
        raise Failed('-: standard input is closed, or was read already')
    with sys.stdin.buffer as file:
        return file.read(most)


def read(name, most=MOST):
    """The bytes of a file, or of standard input for -, at most so many."""
    try:
        if name == '-':
            return read_standard(most)
        with open(name, 'rb') as file:
            return file.read(most)
    except OSError as error:
        raise Failed(f'{name}: {reason(error)}') from None


def read_text(name):
    """The text of a file, by its byte order mark: UTF-16 as Praat writes it, else UTF-8, else Latin-1."""
    data = read(name)
    if len(data) == MOST:
        raise Failed(f'{name}: more than {MOST:,} bytes, which no text for this tool has')
    if data[:2] in (b'\xff\xfe', b'\xfe\xff'):
        return data.decode('utf-16', 'replace')
    try:
        return data.decode('utf-8-sig')
    except UnicodeDecodeError:
        return data.decode('latin-1')


def lines_of(text):
    """The lines of a text, however they end; other marks that Python would split at may stand in a comment."""
    return text.replace('\r\n', '\n').replace('\r', '\n').split('\n')


def same_file(one, other):
    try:
        return os.path.samefile(one, other)
    except OSError:
        return False


def keep_apart(output, inputs):
    """An output that is one of the inputs would overwrite it."""
    for name in inputs:
        if output and name != '-' and same_file(output, name):
            raise Failed(f'{output}: is an input too and would be overwritten')


def write(name, data):
    """Writes one output whole, or nothing of it; - is standard output."""
    if name == '-':
        sys.stdout.flush()
        sys.stdout.buffer.write(data)
        sys.stdout.buffer.flush()
    else:
        write_together([(name, data)])


def write_together(outputs):
    """Writes each (name, bytes) whole; where one fails, none is written. A file that was there stays until then."""
    done = []
    try:
        for name, data in outputs:
            at = os.path.realpath(name)
            if os.path.exists(at) and not stat.S_ISREG(os.stat(at).st_mode):
                write_through(name, data)
            else:
                done.append((aside(name, at, data), name, at))
        while done:
            beside, name, at = done[0]
            try:
                os.replace(beside, at)
            except OSError as error:
                raise Failed(f'{name}: {reason(error)}') from None
            done.pop(0)
    finally:
        for beside, _, _ in done:
            os.unlink(beside)


def write_through(name, data):
    """Writes to what is no plain file, a device or a pipe: it cannot be replaced by another."""
    try:
        with open(name, 'wb', buffering=0) as file:
            while data:
                data = data[file.write(data):]
    except OSError as error:
        raise Failed(f'{name}: {reason(error)}') from None


def aside(name, at, data):
    """Writes the bytes to a new file in the same folder, to the disk, and gives its name."""
    beside = os.path.join(os.path.dirname(at), f'.tonekit-{os.getpid()}-{os.urandom(4).hex()}.part')
    try:
        descriptor = os.open(beside, os.O_WRONLY | os.O_CREAT | os.O_EXCL, 0o666)
    except OSError as error:
        raise Failed(f'{name}: {reason(error)}') from None
    try:
        with open(descriptor, 'wb') as file:
            file.write(data)
            file.flush()
            os.fsync(file.fileno())
    except BaseException as error:
        os.unlink(beside)
        if isinstance(error, OSError):
            raise Failed(f'{name}: {reason(error)}') from None
        raise
    return beside
