"""The subcommands check, sheet, show, pack, unpack, query and plot."""
import hashlib
import json

from . import files, programs, show, text
from .explain import looks_like_text, told
from .files import ENOUGH, Failed
from .inputs import CHECKED, each, load, loaded, say
from .layouts import decode_sheet, records, walk
from .query_text import make_query, part_of, voiced_from
from .refusals import Refused
from .tracks import TrackFault, read_track


def check(args):
    def one(name):
        data = files.read(name, ENOUGH)
        # What begins as none of them is refused as a pack is: 1 at 0, or 2 at 0 if it is empty.
        of = args.of or (show.format_of(data) if show.format_of(data) in CHECKED else 'pack')
        load(name, of, data)
        say(f'{name}: loads, {show.summary(of, records(data), len(data))}')
    return each(args.files, one)


def sheet(args):
    files.keep_apart(args.output, [args.file])
    out, refusal = programs.sheet(loaded(args.file, 'pack'))
    if refusal:
        raise Failed(f'{args.file}: the programs do not agree on it; one says: {refusal.words()}')
    files.write(args.output, out)
    return 0


def entries(data, of):
    """The records to show, each with those around it that it is named by."""
    if of in CHECKED:
        found = records(data[:ENOUGH])
        yield from ((found, i) for i in range(len(found)))
    else:
        yield from (([record], 0) for record in walk(data))


def fault_in(name, of, data):
    """The refusal of a pack, a sheet or a query; of a file of records the first that is none or is cut short. Else nothing."""
    try:
        if of in CHECKED:
            load(name, of, data[:ENOUGH])
            return None
    except Refused as error:
        return error
    for record in walk(data):
        known = record.kind and record.kind.format in ('judgement', 'shape', 'refusal')
        if not known or record.values is None:
            what = f'{record.kind.name}, is cut short' if known else 'begins no judgement, shape or refusal'
            return Refused(name, f'at byte {record.offset}: kind {record.number}, {what}')
    return None


def show_words(name, of, data):
    about = show.summary(of, records(data[:ENOUGH]), len(data)) if of in CHECKED else f'records, {len(data)} bytes'
    say(f'{name}: {about}')
    for found, at in entries(data, of):
        say('\n'.join(show.record_lines(found, at)))


def show_json(name, of, data, fault):
    """One object, its records written one by one."""
    about = json.dumps({'file': name, 'format': of, 'length': len(data)})
    say(f'{about[:-1]}, "records": [')
    for i, (found, at) in enumerate(entries(data, of)):
        say((', ' if i else '  ') + json.dumps(show.json_record(found, at)))
    number = fault and fault.refusal
    refused = fault and {**({**number._asdict(), 'word': number.word} if number else {}), 'words': fault.words}
    say(f'], "refused": {json.dumps(refused)}}}')


def show_file(args):
    data = files.read(args.file)
    of = show.format_of(data)
    if of is None:
        what = f'begins with byte {data[0]}, as none of the formats does' if data else 'is empty'
        hint = '; it looks like text, which `tonekit pack` and `tonekit query` take' if data and looks_like_text(data) else ''
        raise Refused(args.file, f'the file {what}{hint}')
    fault = fault_in(args.file, of, data)
    if args.json:
        show_json(args.file, of, data, fault)
    else:
        show_words(args.file, of, data)
    if fault:
        raise fault
    return 0


def pack(args):
    """Text to bytes. The bytes must load, and give a text that gives them again."""
    files.keep_apart(args.output, [args.file])
    try:
        data, at_line = text.read_pack(files.read_text(args.file))
    except text.TextFault as error:
        raise Refused(args.file, str(error)) from None
    refusal = programs.check('pack', data)
    if refusal:
        line = f'line {at_line[refusal.place]}' if refusal.place in at_line else 'at the end of the text'
        words = told(refusal, data, 'pack', lambda record: f'line {at_line[record.offset]}')
        raise Refused(args.file, f'{line}: the pack is {words}', refusal)
    written_back(args.file, data, text.write_pack(data))
    files.write(args.output, data)
    return 0


def written_back(name, data, words):
    if text.read_pack(words)[0] != data:
        raise Failed(f'{name}: its text does not give its bytes again; nothing is written')


def unpack(args):
    """Bytes to text, with the names of an earlier text where one is given."""
    files.keep_apart(args.output, [args.file, args.names or '-'])
    data = loaded(args.file, 'pack')
    try:
        names = text.names_in(files.read_text(args.names)) if args.names else None
    except text.TextFault as error:
        raise Refused(args.names, str(error)) from None
    words = text.write_pack(data, names)
    written_back(args.file, data, words)
    files.write(args.output or '-', words.encode())
    return 0


def frames_of(args):
    """The frames of a track that a person asks for."""
    frames = read_track(files.read_text(args.file))
    if not frames:
        raise TrackFault('the track has no frames')
    kept = part_of(frames, *args.part) if args.part else frames
    if not kept:
        raise TrackFault(f'no frame lies in the part; the frames run from {frames[0].time:g} to {frames[-1].time:g} s')
    return voiced_from(kept, args.voiced_from)


def query(args):
    files.keep_apart(args.output, [args.file])
    try:
        data = make_query(frames_of(args), vars(args))
    except TrackFault as error:
        raise Refused(args.file, str(error)) from None
    files.write(args.output, load(args.file, 'query', data))
    return 0


def plot(args):
    """Draws a sheet that loads. The digest is of its bytes: equal sheets mean equal lookups."""
    try:
        from . import plot as drawing
    except ImportError:
        raise Failed('plotting is not part of this installation') from None
    files.keep_apart(args.output, [args.file])
    data = loaded(args.file, 'sheet')
    try:
        pages = drawing.draw(decode_sheet(data), hashlib.sha256(data).hexdigest(), args)
    except ValueError as error:
        raise Failed(f'{args.file}: {error}') from None
    if args.output == '-' and len(pages) > 1:
        raise Failed(f'the plot has {len(pages)} pages, and standard output takes one')
    if args.output == '-':
        files.write('-', pages[0][1].encode())
    else:
        files.write_together([(drawing.page_path(args.output, suffix), svg.encode()) for suffix, svg in pages])
    return 0
