"""Two runs on the same script compared; a complaint is the text of what is wrong, empty where nothing is."""

from comparison.records import described, records


def complaint(script, ours, oracle):
    """Both must write the same, end with status 0 and print no error."""
    for name, run in (('oracle', oracle), ('ours', ours)):
        if bad := ended_badly(name, run):
            return f'{bad}, on script {shown(script)}'
    if ours.output == oracle.output:
        return ''
    end = 0
    for number, record in enumerate(records(script)):
        end = record.answer_end
        part = slice(record.answer_start, end)
        if ours.output[part] != oracle.output[part]:
            return differing(number, record, {'ours': ours.output[part], 'oracle': oracle.output[part]})
    after = answers({'ours': ours.output[end:], 'oracle': oracle.output[end:]})
    return f'after the last whole record of script {shown(script)}\n{after}'


def ended_badly(name, run):
    return f'{name}: status {run.status}, errors {run.errors}' if run.status != 0 or run.errors else ''


def differing(number, record, given):
    """A record with the answers that it was given, by who gave them."""
    where = '\n'.join(described(record))
    return f'record {number}, {where}\n{answers(given)}'


def answers(given):
    return '\n'.join(f'  {name:16} {shown(answer)}' for name, answer in given.items())


def shown(data):
    """Bytes in hexadecimal, no more than fit on a few lines."""
    return data[:200].hex() + '...' * (len(data) > 200) or 'nothing'
