"""Files that were read as tempo lists must write back to their bytes, damaged ones too."""

from comparison.programs import run
from comparison.records import records
from comparison.tempo_list_calls import PAIR, READ, write_record


def test_write_back(script, answers, ours, report):
    """Writes what our replay read of a script's files, each into a room of the file's size."""
    files = [(record.fields['file'], answers[record.answer_start + 2:record.answer_end]) for record in records(script)
             if record.first == READ and answers[record.answer_start] == 0]
    again = b''.join(write_record(len(file), list(PAIR.iter_unpack(pairs))) for file, pairs in files)
    expected = b''.join(b'\x00' + len(file).to_bytes(2, 'big') + file for file, _ in files)
    written = run(ours, again).output
    report.test(f'{len(files):,} files that were read write back to their bytes',
                '' if files and written == expected else '  another file was written, or none was read')
