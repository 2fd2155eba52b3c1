"""Many answers as CSV: a row for each query, words beside numbers, refused ones too. The columns follow the table of layouts."""
import csv
import io

from .layouts import KINDS, decode, derived, used
from .refusals import Refusal
from .show import deltas_of, has_words, issue_names

ANSWER = ('query', 'status', 'refusal', 'refusal_word', 'place', 'words')


def names(field, tones):
    """The columns of a field: one for each of its values, those of log-likelihoods by their tones."""
    if field.name == 'logliks':
        return [f'loglik_tone_{number}' for number in tones]
    if field.times > 1:
        return [f'{field.name[:-1] if field.name.endswith("s") else field.name}_{i}' for i in range(field.times)]
    return [field.name]


def told(kind):
    hidden = derived(kind)
    return [field for field in kind.fields if field.name not in hidden]


def heading(number, tones=()):
    """The heading for records of a kind."""
    out = list(ANSWER)
    for field in told(KINDS[number]):
        for name in names(field, tones):
            out += [name, f'{name}_word'] if has_words(field) else [name]
    return out + (['delta_words'] if number == 49 else []) + ['issue_words']


def cells(number, record, tones=()):
    """The cells of a record, in the heading's order; what is unused is empty."""
    kind = KINDS[number]
    values, out = decode(kind, record), []
    for field in told(kind):
        whole = values[field.name] if field.times > 1 else [values[field.name]]
        for i, _ in enumerate(names(field, tones)):
            value = whole[i] if i in used(field, values) else ''
            out.append(value)
            if has_words(field):
                out.append(field.names.get(value, ''))
    if number == 49:
        out.append('; '.join(f'{advice} by {amount} {unit}' for _, _, advice, unit, amount in deltas_of(values)))
    return out + [' '.join(issue_names(values['issues']))]


def answer(name, status, words='', refusal=None):
    """The first cells of a row."""
    number, place = refusal or ('', '')
    return [name, status, number, Refusal(number, place).word if refusal else '', place, words]


def row(values):
    out = io.StringIO()
    csv.writer(out, lineterminator='\n').writerow(values)
    return out.getvalue()
