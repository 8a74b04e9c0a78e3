"""Inputs of `tempolist` and its answers to them, written out by hand from the order's words."""

LONGEST_INPUT = 65_536

# The header, and the track's head without its length.
HEADS = '4D546864 00000006 0000 0001 03E8 4D54726B'
NO_PAIRS = bytes.fromhex(f'{HEADS} 00000004 00FF2F00')
ONE_PAIR = bytes.fromhex(f'{HEADS} 0000000B 00FF510307A120 00FF2F00')
TWO_PAIRS = bytes.fromhex(f'{HEADS} 00000013 00FF510307A120 9F20FF510307270E 00FF2F00')
ONES = bytes.fromhex(f'{HEADS} 000001C4' + '00FF5103000001' * 64 + '00FF2F00')
LARGEST = bytes.fromhex(f'{HEADS} 00000284' + 'FFFFFF7FFF5103FFFFFF' * 64 + '00FF2F00')
LARGEST_LINES = b''.join(b'16777215 %d\n' % (268_435_455_000 * (place + 1)) for place in range(64))

TOO_LONG = b'input too long\n'
BAD = b'bad line %d\n'
REFUSED = b'refused %d\n'


def padded(line, size):
    """The line with zeros in front, so that it has this many bytes."""
    return b'0' * (size - len(line)) + line


# A title, the input and the answer.
CASES = [
    # The order's example, and what may differ in its spelling.
    ('the example', b'500000 0\n468750 4000000\n', TWO_PAIRS),
    ('the example, back', TWO_PAIRS, b'500000 0\n468750 4000000\n'),
    ('the last newline missing', b'500000 0\n468750 4000000', TWO_PAIRS),
    ('zeros in front', b'00500000 0\n0468750 0000000004000000\n', TWO_PAIRS),
    ('minus zero', b'500000 -0\n', ONE_PAIR),
    ('minus zero as a tempo', b'-0 0\n', REFUSED % 8),
    ('equal beat origins', b'1 0\n' * 2, bytes.fromhex(f'{HEADS} 00000012 00FF5103000001 00FF5103000001 00FF2F00')),
    # The empty list.
    ('empty input', b'', NO_PAIRS),
    ('the empty list, back', NO_PAIRS, b''),
    # Lines that are none.
    ('an empty line', b'\n', BAD % 1),
    ('an empty line in the middle', b'500000 0\n\n468750 4000000\n', BAD % 2),
    ('an empty line at the end', b'500000 0\n\n', BAD % 2),
    ('one number', b'500000\n', BAD % 1),
    ('one number and a space', b'500000 \n', BAD % 1),
    ('a space and one number', b' 500000\n', BAD % 1),
    ('a space alone', b' ', BAD % 1),
    ('three numbers', b'500000 0 0\n', BAD % 1),
    ('two spaces', b'500000  0\n', BAD % 1),
    ('a space in front', b' 500000 0\n', BAD % 1),
    ('a space behind', b'500000 0 \n', BAD % 1),
    ('a tab', b'500000\t0\n', BAD % 1),
    ('a carriage return', b'500000 0\r\n', BAD % 1),
    ('carriage returns alone', b'500000 0\r468750 4000000\r', BAD % 1),
    ('a NUL behind', b'500000 0\0\n', BAD % 1),
    ('a NUL in front', b'\x00500000 0\n', BAD % 1),
    ('a NUL alone', b'\0', BAD % 1),
    ('a byte above ASCII', b'500000 0\n\xb2 0\n', BAD % 2),
    ('a form feed', b'500000\x0c0\n', BAD % 1),
    ('letters', b'tempo beat\n', BAD % 1),
    ('a small m', b'm 0\n', BAD % 1),
    ('a file behind a newline', b'\n' + TWO_PAIRS, BAD % 1),
    ('the first of two bad lines', b'500000 0\nx\ny\n', BAD % 2),
    # Words that are no numbers.
    ('a plus sign', b'+500000 0\n', BAD % 1),
    ('a minus sign alone', b'- 0\n', BAD % 1),
    ('a minus sign alone, as a beat', b'500000 -\n', BAD % 1),
    ('two minus signs', b'--5 0\n', BAD % 1),
    ('a minus sign behind', b'5- 0\n', BAD % 1),
    ('a decimal point', b'500000.0 0\n', BAD % 1),
    ('a thousands separator', b'500_000 0\n', BAD % 1),
    ('hexadecimal', b'0x10 0\n', BAD % 1),
    ('an exponent', b'5e5 0\n', BAD % 1),
    ('the byte before 0', b'/ 0\n', BAD % 1),
    ('the byte behind 9', b': 0\n', BAD % 1),
    # The edges of 64 bits.
    ('the largest tempo that is a number', b'9223372036854775807 0\n', REFUSED % 8),
    ('one above it', b'9223372036854775808 0\n', BAD % 1),
    ('the smallest tempo that is a number', b'-9223372036854775808 0\n', REFUSED % 8),
    ('one below it', b'-9223372036854775809 0\n', BAD % 1),
    ('the largest beat that is a number', b'1 9223372036854775807\n', REFUSED % 9),
    ('one above it, as a beat', b'1 9223372036854775808\n', BAD % 1),
    ('the smallest beat that is a number', b'1 -9223372036854775808\n', REFUSED % 9),
    ('one below it, as a beat', b'1 -9223372036854775809\n', BAD % 1),
    ('ten times the largest', b'92233720368547758070 0\n', BAD % 1),
    ('2 to the 64th and 1', b'18446744073709551617 0\n', BAD % 1),
    ('2 to the 64th and 1000, as a beat', b'1 18446744073709552616\n', BAD % 1),
    ('2 to the 64th less 1, negative', b'-18446744073709551615 0\n', BAD % 1),
    ('zeros before the largest', b'1 ' + b'0' * 500 + b'9223372036854775807\n', REFUSED % 9),
    ('zeros before one above it', b'1 ' + b'0' * 500 + b'9223372036854775808\n', BAD % 1),
    ('zeros behind', b'1' + b'0' * 60_000 + b' 0\n', BAD % 1),
    ('60,000 nines, negative', b'1 -' + b'9' * 60_000 + b'\n', BAD % 1),
    # What the list is refused for.
    ('tempo 0', b'0 0\n', REFUSED % 8),
    ('tempo -1', b'-1 0\n', REFUSED % 8),
    ('tempo 16,777,215', b'16777215 0\n', bytes.fromhex(f'{HEADS} 0000000B 00FF5103FFFFFF 00FF2F00')),
    ('tempo 16,777,216', b'16777216 0\n', REFUSED % 8),
    ('a bad tempo behind a good one', b'500000 0\n0 0\n', REFUSED % 8),
    ('a negative beat', b'500000 -1\n', REFUSED % 9),
    ('a beat of -1,000', b'500000 -1000\n', REFUSED % 9),
    ('a beat that is no multiple of 1,000', b'500000 999\n', REFUSED % 9),
    ('a beat below its forerunner', b'500000 1000\n500000 0\n', REFUSED % 9),
    ('the farthest beat', b'1 268435455000\n', bytes.fromhex(f'{HEADS} 0000000E FFFFFF7FFF5103000001 00FF2F00')),
    ('a beat beyond it', b'1 268435456000\n', REFUSED % 9),
    ('8 before 9', b'500000 -1\n0 0\n', REFUSED % 8),
    # How many lines.
    ('64 lines', b'1 0\n' * 64, ONES),
    ('64 lines, back', ONES, b'1 0\n' * 64),
    ('65 lines', b'1 0\n' * 65, REFUSED % 8),
    ('65 lines, the last newline missing', b'1 0\n' * 64 + b'1 0', REFUSED % 8),
    ('65 lines with a bad beat', b'1 -1\n' * 65, REFUSED % 8),
    ('66 lines', b'1 0\n' * 66, REFUSED % 8),
    ('the largest file', LARGEST_LINES, LARGEST),
    ('the largest file, back', LARGEST, LARGEST_LINES),
    ('a bad line behind 64', b'1 0\n' * 64 + b'x\n', BAD % 65),
    ('a bad line behind 65', b'1 0\n' * 65 + b'x\n', BAD % 66),
    ('a bad line behind 300', b'1 0\n' * 300 + b'x\n', BAD % 301),
    ('a bad line behind a bad tempo', b'0 0\nx\n', BAD % 2),
    ('a bad line behind a bad beat', b'1 -1\nx\n', BAD % 2),
    # How many bytes.
    ('65,536 bytes of one line', padded(b'500000 0\n', LONGEST_INPUT), ONE_PAIR),
    ('65,537 bytes of one line', padded(b'500000 0\n', LONGEST_INPUT + 1), TOO_LONG),
    ('65,536 bytes of 16,384 lines', b'1 0\n' * 16_384, REFUSED % 8),
    ('65,536 bytes, the last line bad', b'1 0\n' * 16_383 + b'1 x\n', BAD % 16_384),
    ('65,537 bytes of lines', b'1 0\n' * 16_384 + b'1', TOO_LONG),
    ('65,536 newlines', b'\n' * LONGEST_INPUT, BAD % 1),
    ('65,536 bytes that begin with 4D', b'M' * LONGEST_INPUT, REFUSED % 10),
    ('65,537 bytes that begin with 4D', b'M' * (LONGEST_INPUT + 1), TOO_LONG),
    ('a file with zeros up to 65,536 bytes', TWO_PAIRS.ljust(LONGEST_INPUT, b'\0'), REFUSED % 10),
    ('a file with zeros up to 65,537 bytes', TWO_PAIRS.ljust(LONGEST_INPUT + 1, b'\0'), TOO_LONG),
    ('300,000 bytes', b'1 0\n' * 75_000, TOO_LONG),
    # Files that are none.
    ('4D alone', b'M', REFUSED % 10),
    ('a line that begins with 4D', b'M 0\n', REFUSED % 10),
    ('a file without its last byte', TWO_PAIRS[:-1], REFUSED % 10),
    ('a file with a newline behind', TWO_PAIRS + b'\n', REFUSED % 10),
    ('a header alone', TWO_PAIRS[:14], REFUSED % 10),
    ('65 pairs', bytes.fromhex(f'{HEADS} 000001CB' + '00FF5103000001' * 65 + '00FF2F00'), REFUSED % 10),
    ('tempo 0 in a file', bytes.fromhex(f'{HEADS} 0000000B 00FF5103000000 00FF2F00'), REFUSED % 10),
    ('960 ticks', NO_PAIRS.replace(b'\x03\xe8', b'\x03\xc0'), REFUSED % 10),
    ('format 1', NO_PAIRS.replace(b'\0\0\0\1\3\xe8', b'\0\1\0\1\3\xe8'), REFUSED % 10),
    ('a delta of 0 in two bytes', bytes.fromhex(f'{HEADS} 0000000C 8000FF510307A120 00FF2F00'), REFUSED % 10),
]
