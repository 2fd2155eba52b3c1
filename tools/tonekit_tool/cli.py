"""The command line: `tonekit SUBCOMMAND …`. Status 0 done, 1 refused, 2 used wrongly or the machine failed."""
import argparse
import io
import math
import os
import signal
import sys
import traceback

from . import __version__, commands, judging
from .files import Failed, reason
from .floats import NotANumber, parsed
from .layouts import ISSUES
from .inputs import CHECKED, complain
from .query_text import MOST_VARIANTS, semitones
from .refusals import Refused

ABOUT = """Checks, judges, shows, writes and draws the files of a tone station. Every answer comes from the proved programs.
FILE may be - for standard input, and an output - for standard output."""
STATUS = 'Status: 0 done, 1 refused, 2 used wrongly or the machine failed; with several inputs the greatest of theirs.'


def number(most):
    """A type of argument: a whole number from 0 to that."""
    def read(text):
        if not text.isascii() or not text.isdigit() or len(text) > 10 or int(text) > most:
            raise argparse.ArgumentTypeError(f'{text!r} is no whole number from 0 to {most}')
        return int(text)
    return read


def told(read):
    """A type of argument from a reader of floats; what is no number is told."""
    def argument(text):
        try:
            return read(text)
        except NotANumber as error:
            raise argparse.ArgumentTypeError(str(error)) from None
    return argument


def finite(text):
    """A type of argument: a float that is a number."""
    try:
        value = float(text)
    except ValueError:
        value = math.nan
    if not math.isfinite(value):
        raise argparse.ArgumentTypeError(f'{text!r} is no number')
    return value


def issue(text):
    known = {name.lower(): name for name in ISSUES}
    if text.lower() not in known:
        raise argparse.ArgumentTypeError(f'{text!r} is none of {", ".join(ISSUES)}')
    return known[text.lower()]


class Parser(argparse.ArgumentParser):
    """A parser that notices when its help cannot be written."""

    def print_help(self, file=None):
        (file or sys.stdout).write(self.format_help())


class Version(argparse.Action):
    def __call__(self, parser, *_):
        sys.stdout.write(f'tonekit {__version__}\n')
        parser.exit()


class Variant(argparse.Action):
    """Gathers tone and weight of each variant."""

    def __call__(self, parser, args, values, option=None):
        try:
            both = number(255)(values[0]), told(parsed)(values[1])
        except argparse.ArgumentTypeError as error:
            raise argparse.ArgumentError(self, str(error)) from None
        if len(args.variants) == MOST_VARIANTS:
            raise argparse.ArgumentError(self, f'a query has at most {MOST_VARIANTS} variants')
        args.variants = [*args.variants, both]


def add(parsers, name, run, about, **more):
    parser = parsers.add_parser(name, help=about, description=about[0].upper() + about[1:] + '.', epilog=STATUS, **more)
    parser.set_defaults(run=run)
    return parser


def add_checking(parsers):
    check = add(parsers, 'check', commands.check, 'say whether files are packs, sheets or queries that load')
    check.add_argument('files', nargs='+', metavar='FILE')
    check.add_argument('--as', dest='of', choices=CHECKED, help='the format; else the first byte says it (1, 17, 48)')
    show = add(parsers, 'show', commands.show_file, 'show a pack, sheet, query, judgement, shape or refusal in words, by offset')
    show.add_argument('file', metavar='FILE')
    show.add_argument('--json', action='store_true', help='the same for scripts')


def add_judging(parsers):
    judge = add(parsers, 'judge', judging.judge, 'judge queries by a pack or by its sheet')
    by = judge.add_mutually_exclusive_group(required=True)
    by.add_argument('--pack', metavar='PACK')
    by.add_argument('--sheet', metavar='SHEET')
    shape = add(parsers, 'shape', judging.shape, 'measure the shape of queries')
    for parser in (judge, shape):
        parser.add_argument('queries', nargs='+', metavar='QUERY')
        parser.add_argument('-o', '--output', metavar='FILE', help="the bytes of one query's record, or the CSV")
        parser.add_argument('--csv', action='store_true', help='one row for each query, refused ones too')


def add_making(parsers):
    sheet = add(parsers, 'sheet', commands.sheet, 'write the sheet of a pack')
    sheet.add_argument('file', metavar='PACK')
    sheet.add_argument('-o', '--output', metavar='FILE', required=True)
    pack = add(parsers, 'pack', commands.pack, 'write a pack from its text')
    pack.add_argument('file', metavar='TEXT')
    pack.add_argument('-o', '--output', metavar='FILE', required=True)
    unpack = add(parsers, 'unpack', commands.unpack, 'write the text of a pack')
    unpack.add_argument('file', metavar='PACK')
    unpack.add_argument('-o', '--output', metavar='FILE', help='standard output if not said')
    unpack.add_argument('--names', metavar='TEXT', help='an earlier text, whose comments name tones, accents and rules')


def add_query(parsers):
    query = add(parsers, 'query', commands.query, 'write a query from a pitch track with a step of 10 ms: CSV of time,hz,voicing '
                "or Praat's PitchTier or Pitch as text")
    query.add_argument('file', metavar='TRACK')
    query.add_argument('-o', '--output', metavar='FILE', required=True)
    query.add_argument('--accent', type=number(255), required=True, metavar='N', help='the accent to grade by')
    query.add_argument('--tone', type=number(255), required=True, metavar='N', help='the tone expected')
    query.add_argument('--prev', type=number(255), default=0, metavar='N', help='the tone before; none if not said')
    query.add_argument('--final', action='store_const', const=1, default=0, help='at the end of a phrase')
    for name, what in (('--floor', 'lowest'), ('--ceil', 'highest')):
        query.add_argument(name, type=told(semitones), metavar='ST',
                           help=f"the {what} pitch of the speaker's register, in semitones above 55 Hz, or in Hz as 110Hz")
    query.add_argument('--cold', action='store_true', help="in place of --floor and --ceil: a new speaker, whose register is "
                       "taken from all frames of the query")
    query.set_defaults(run=lambda args: commands.query(with_register(query, args)))
    query.add_argument('--span', type=number(2 ** 32 - 1), nargs=2, metavar=('START', 'END'),
                       help='the first frame of the syllable and the one after its last; all frames if not said')
    query.add_argument('--part', type=finite, nargs=2, metavar=('START', 'END'),
                       help='keep the frames from START s to before END s')
    query.add_argument('--voiced-from', type=finite, default=0, metavar='P', help='frames with a voicing below P are unvoiced')
    query.add_argument('--issue', type=issue, action='append', dest='issues', default=[], metavar='NAME', help=', '.join(ISSUES))
    query.add_argument('--variant', nargs=2, action=Variant, dest='variants', default=[], metavar=('TONE', 'WEIGHT'),
                       help=f'another tone that the word may have, and its weight; at most {MOST_VARIANTS}')


def with_register(parser, args):
    """The arguments of a query, which have both ends of the register or neither: none where it is cold."""
    ends = [f'--{name}' for name in ('floor', 'ceil') if (getattr(args, name) is None) != args.cold]
    if ends and args.cold:
        parser.error(f'argument --cold: not allowed with argument {ends[0]}')
    if ends:
        parser.error(f'the following arguments are required: {", ".join(ends)} (or --cold, of a new speaker)')
    return args


def add_plot(parsers):
    plot = add(parsers, 'plot', commands.plot, 'draw a sheet as SVG')
    plot.add_argument('file', metavar='SHEET')
    plot.add_argument('-o', '--output', metavar='FILE.svg', required=True)
    try:
        from .plot import add_arguments
    except ImportError:
        return
    add_arguments(plot)


def parser():
    out = Parser(prog='tonekit', description=ABOUT, epilog=STATUS)
    out.add_argument('--version', action=Version, nargs=0, help='say the version')
    parsers = out.add_subparsers(metavar='SUBCOMMAND', required=True)
    for group in (add_checking, add_judging, add_making, add_query, add_plot):
        group(parsers)
    return out


def stop(*_):
    """Ends by an exception, so that what was begun is taken away."""
    raise Failed('tonekit: stopped')


def run(words):
    """Runs a command line; the status."""
    try:
        args = parser().parse_args(words)
        return args.run(args)
    except SystemExit as done:
        return done.code
    except Refused as error:
        complain(error)
        return 1
    except Failed as error:
        complain(error)
    except KeyboardInterrupt:
        complain('tonekit: interrupted')
    except OSError:
        raise
    except Exception:
        # A fault of the tool is no refusal of an input.
        complain(f'tonekit: a fault of the tool itself\n{traceback.format_exc()}')
    return 2


def steady(stream):
    """The stream through a buffer that notices what was not written, also where Python is told to use none."""
    raw = io.FileIO(stream.fileno(), 'wb', closefd=False)
    return io.TextIOWrapper(io.BufferedWriter(raw), 'utf-8', 'surrogateescape', line_buffering=stream.isatty())


def give_up(error):
    """Standard output cannot be written: nothing more may be tried on it, not even at the end of the process."""
    os.dup2(os.open(os.devnull, os.O_WRONLY), sys.stdout.fileno())
    if not isinstance(error, BrokenPipeError):
        sys.stderr.write(f'standard output: {reason(error)}\n')
    return 2


def main(words=None):
    if sys.stderr is None:
        sys.stderr = open(os.devnull, 'w')
    if sys.stdout is None:
        sys.stderr.write('standard output: it is closed\n')
        return 2
    sys.stderr.reconfigure(errors='surrogateescape')
    sys.stdout = steady(sys.stdout)
    signal.signal(signal.SIGTERM, stop)
    try:
        status = run(words)
        sys.stdout.flush()
        return status
    except OSError as error:
        return give_up(error)
