"""The subcommands judge and shape: a record for each query, as words, as bytes or as CSV."""
import sys
import time

from . import files, programs, show, tables
from .explain import in_context
from .files import ENOUGH, Failed
from .inputs import each, loaded, refuse, say, status_of
from .layouts import records
from .refusals import PLACELESS, Refused


class Progress:
    """A line on standard error once the work takes more than a second: on a terminal over the last one, else ever more rarely."""

    def __init__(self, total):
        self.total, self.next, self.wait, self.shown = total, time.monotonic() + 1, 1, False
        self.terminal = sys.stderr.isatty()

    def at(self, done):
        if time.monotonic() < self.next:
            return
        self.shown, self.wait = True, 0.2 if self.terminal else 2 * self.wait
        self.next = time.monotonic() + self.wait
        sys.stderr.write(f'{done} of {self.total} queries' + ('\r' if self.terminal else '\n'))
        sys.stderr.flush()

    def end(self):
        if self.shown and self.terminal:
            sys.stderr.write('\x1b[K')


class Answers:
    """Hands out the answers: words or CSV on standard output, CSV or one record's bytes into a file."""

    def __init__(self, args, kind, tones=()):
        self.args, self.kind, self.tones, self.out = args, kind, tones, []
        self.heading = tables.heading(kind, tones)
        if args.csv:
            self.put(self.heading)

    def put(self, cells):
        """Adds a row of the CSV."""
        line = tables.row(cells + [''] * (len(self.heading) - len(cells)))
        if self.args.output:
            self.out.append(line.encode('utf-8', 'surrogateescape'))
        else:
            sys.stdout.write(line)

    def record(self, name, record):
        if self.args.csv:
            self.put(tables.answer(name, 0) + tables.cells(self.kind, record, self.tones))
        elif self.args.output:
            self.out.append(record)
        else:
            say(f'{name}: {show.in_short(records(record)[0])}')
            for _, words in show.field_lines(records(record)[0], self.tones):
                say(words)

    def fault(self, name, error):
        """A query without a record has a row of its own."""
        if self.args.csv:
            words = str(error)[len(name) + 2:]
            self.put(tables.answer(name, status_of(error), words, getattr(error, 'refusal', None)))

    def end(self):
        if self.out:
            files.write(self.args.output, b''.join(self.out))


def answer_all(args, answers, ask):
    """Asks for the record of each query, in order."""
    progress, done = Progress(len(args.queries)), iter(range(1, len(args.queries) + 1))

    def one(name):
        try:
            answers.record(name, ask(name))
        except (Refused, Failed) as error:
            answers.fault(name, error)
            raise
        finally:
            progress.at(next(done))
    status = each(args.queries, one)
    progress.end()
    answers.end()
    return status


def prepare(args, inputs):
    """A file of bytes holds one record, and no output is an input."""
    if args.output and not args.csv and len(args.queries) > 1:
        raise Failed(f'-o takes the bytes of one record, and there are {len(args.queries)} queries; with --csv it takes many')
    files.keep_apart(args.output, inputs)


def record_of(name, query, answer, held=b''):
    """The record of a query, or its refusal in words. What it was judged by loads, so where there is a place the query is at fault
    alone: its own check must say the same."""
    record, refusal = answer
    if record:
        return record
    if refusal.number in PLACELESS:
        raise Refused(name, f'{refusal.words()}; {in_context(refusal, query, held)}', refusal)
    if programs.check('query', query) != refusal:
        raise Failed(f'{name}: the programs do not agree on it; one says: {refusal.words()}')
    return refuse(name, refusal, query, 'query')


def judge(args):
    of, by = ('pack', args.pack) if args.pack else ('sheet', args.sheet)
    prepare(args, [by, *args.queries])
    held = loaded(by, of)
    tones = [record.values['number'] for record in records(held) if record.kind.name == 'tone']

    def ask(name):
        query = files.read(name, ENOUGH)
        return record_of(name, query, programs.judge(of, held, query), held)
    return answer_all(args, Answers(args, 49, tones), ask)


def shape(args):
    prepare(args, args.queries)

    def ask(name):
        query = files.read(name, ENOUGH)
        return record_of(name, query, programs.shape(query))
    return answer_all(args, Answers(args, 51), ask)
