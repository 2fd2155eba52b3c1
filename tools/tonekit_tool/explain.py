"""What stands at the place of a refusal, in words: which record, and which of its fields looks wrong by the table of layouts.
The number and the place are the program's; this only explains them."""
from .files import ENOUGH
from .layouts import FIRST, records, used
from .show import title, value_words


def at_byte(record):
    return f'at byte {record.offset}'


def told(refusal, data, of, where=at_byte):
    """The refusal in words, with the record at its place; `where` says of another record where it stands."""
    found = records(data)
    at = next((i for i, record in enumerate(found) if record.offset == refusal.place), None)
    plainly = {1: misplaced, 2: cut_short, 3: overrun}.get(refusal.number)
    if plainly:
        more = plainly(refusal.place, data, of, found, at)
        return refusal.words() + (f'; {more}' if more else '')
    if at is None or refusal.number not in FAULTS or found[at].values is None:
        return refusal.words()
    others = [where] if refusal.number in (7, 20) else []
    faults = FAULTS[refusal.number](found, at, *others)
    return refusal.words(title(found, at)) + (f'; by the table of layouts, {"; ".join(faults)}' if faults else '')


def after(found, at):
    return f'after {title(found, at - 1)}' if at else 'at the beginning'


def misplaced(place, data, of, found, at):
    if at is None:
        return ''
    record = found[at]
    name = f'{record.kind.name}, of a {record.kind.format}' if record.kind else 'which no record has'
    if place == 0 and FIRST.get(record.number) in ('pack', 'sheet', 'query'):
        return f'the first byte is {record.number}, that of a {FIRST[record.number]}'
    kind = f'a record of kind {record.number}, {name}, stands {after(found, at)}'
    if place == 0:
        return kind + ('; the file looks like text' if looks_like_text(data) else '')
    more = about_cold(of, record) or about_tails(of, record, found[at - 1])
    return kind + (f': {more}' if more else '')


def about_cold(of, record):
    """Where kind 55 stands, if that is why a record is misplaced or surplus."""
    if of == 'query' and record.kind and record.kind.name == 'cold register':
        return 'a cold register stands once, straight after the record of the query'
    return ''


def about_tails(of, record, before):
    """Where tails stand, if that is why a record is misplaced."""
    if record.kind and record.kind.name == 'tail' and record.kind.format == of:
        return 'a tail stands straight after its tone, which has one' + (' at most' if of == 'pack' else '')
    if of == 'sheet' and before.kind and before.kind.name == 'tone':
        return 'in a sheet each tone is followed by its tail, kind 24'
    return ''


def cut_short(place, data, of, found, at):
    if at is None:
        return f'the input ends {after(found, len(found))}' if found else 'the input is empty'
    kind = found[at].kind
    left = len(data) - place
    return f'a record of kind {kind.number}, {kind.name}, begins there and has {kind.size} bytes, of which {left} are left'


def overrun(place, data, of, found, at):
    # No more than that is read of a file.
    more = ' or more' if len(data) == ENOUGH else ''
    cold = at is not None and about_cold(of, found[at])
    return f'the {of} ends before it, and {len(data) - place}{more} bytes are left' + (f'; {cold}' if cold else '')


def looks_like_text(data):
    return all(byte in b'\t\r\n' or 32 <= byte < 127 for byte in data[:64])


def above(found, at):
    """The values of the record that the record at an index belongs to: a part's rule, a component's list."""
    within = found[at].kind.within
    owners = [r for r in found[:at] if within and r.kind.name == within[0]]
    return owners[-1].values if owners else None


def off_scale(found, at):
    """Which fields look out of range."""
    kind, values = found[at].kind, found[at].values
    faults = []
    for field in kind.fields:
        whole = values[field.name] if field.times > 1 else [values[field.name]]
        counts = used(field, values)
        for i, value in enumerate(whole):
            name = f'{field.word} {i}' if field.times > 1 else field.word
            if i in counts and not field.range.holds(value):
                faults.append(f'{name} is {value_words(field, value)}, not {field.range.words}')
            elif i not in counts and getattr(value, 'bits', value) != 0:
                faults.append(f'{name} is unused and not zero bytes')
    return faults + broken_rules(found, at, 5)


def broken_rules(found, at, number):
    kind, values = found[at].kind, found[at].values
    return [f'{name} is {values[name]}, not {words}' for refusal, name, words, holds in kind.rules
            if refusal == number and not holds(values, above(found, at))]


def crowded(found, at):
    """Which count passes its limit."""
    kind, values = found[at].kind, found[at].values
    faults = [f'{field.word} is {values[field.name]}, at most {field.limit}' for field in kind.fields
              if field.limit and values[field.name] > field.limit] or broken_rules(found, at, 4)
    count = sum(r.kind is kind for r in found[:at + 1])
    if kind.most and count > kind.most:
        faults.append(f'it is {kind.name} number {count} of the file, which may have {kind.most}')
    if kind.within:
        owner = max((i for i in range(at) if found[i].kind.name == kind.within[0]), default=at)
        if at - owner > kind.within[1] or (at - owner > 1 and found[owner].values.get('form') == 2):
            faults.append(f'it is {kind.name} number {at - owner} of {title(found, owner)}')
    return faults


def doubled(found, at):
    kind, number = found[at].kind, found[at].values.get('number')
    first = next((r for r in found[:at] if r.kind is kind and r.values['number'] == number), None)
    return [f'it stands at byte {first.offset} already'] if first else []


def held(found, name):
    return [r.values['number'] for r in found if r.kind and r.kind.name == name and r.values]


def accents_in(found):
    return [r for r in found if r.kind and r.kind.name == 'accent' and r.values]


def loose(found, at, where=at_byte):
    """Which fields name something that is not there: those of the record; at a pack's end those of its accents, the parents."""
    at_end = found[at].kind.name == 'end'
    faults = []
    for record in accents_in(found) if at_end else [found[at]]:
        for field in record.kind.fields:
            number, there = record.values[field.name], held(found, field.refers)
            if field.refers and number and number not in there:
                name = f'the {field.word} of accent {record.values["number"]} ({where(record)})' if at_end else field.word
                faults.append(f'{name} is {number}, and the {field.refers}s are: {", ".join(map(str, there)) or "none"}')
    return faults


def rings(parents):
    """The chains of parents that come round, each once, by the numbers of its accents; of each accent its parent is given."""
    found = []
    for first in parents:
        chain = [first]
        while parents[chain[-1]] in parents and parents[chain[-1]] not in chain:
            chain.append(parents[chain[-1]])
        if parents[chain[-1]] == first and not any(first in ring for ring in found):
            found.append(chain)
    return found


def endless(found, at, where=at_byte):
    """Which accents lead back to themselves."""
    accents = {record.values['number']: record for record in accents_in(found)}
    faults = []
    for ring in rings({number: record.values['parent'] for number, record in accents.items()}):
        *many, last = ring
        steps = [f'{number} ({where(accents[number])}) has parent {accents[number].values["parent"]}' for number in ring]
        faults.append(f'accents {", ".join(map(str, many))} and {last} form a ring: {", ".join(steps)}' if many else
                      f'accent {last} ({where(accents[last])}) is its own parent')
    return faults


FAULTS = {4: crowded, 5: off_scale, 6: doubled, 7: loose, 8: lambda found, at: [], 10: off_scale, 20: endless}


def in_context(refusal, query, held_data):
    """For a refusal of what a query and a pack or sheet say together: the numbers that it turns on."""
    asked = records(query)[0].values
    found = records(held_data)
    tones, accents = (', '.join(map(str, held(found, name))) for name in ('tone', 'accent'))
    variants = [(asked['variant_tones'][i], asked['variant_weights'][i]) for i in range(asked['variant_count'])]
    if refusal.number == 11:
        return voiced_words(asked, query)
    if refusal.number == 12:
        return f'the query asks for accent {asked["accent"]}; held are {accents}'
    if refusal.number == 13:
        wanted = ', '.join(str(tone) for tone, _ in variants) or 'none'
        return f'the query has tone {asked["tone"]}, prev {asked["prev"]}, variant tones {wanted}; held are tones {tones}'
    if refusal.number == 14:
        place = 'at the end of a phrase' if asked['final'] else 'not at the end of a phrase'
        return f'the context is accent {asked["accent"]}, prev {asked["prev"] or "none"}, {place}'
    if refusal.number == 15:
        return 'the variants are ' + ', '.join(f'tone {tone} of weight {weight}' for tone, weight in variants)
    return ''


def voiced_words(asked, query):
    frames = [r.values for r in records(query) if r.kind.name == 'frame']
    within = frames[asked['start']:asked['end']]
    voiced = sum(f['voiced'] == 1 and 0 < f['hz'] < float('inf') for f in within)
    return f'the query has {len(frames)} frames; its span, from {asked["start"]} to {asked["end"]}, has {voiced} with a pitch'
