"""Signed 64-bit numbers as the engine's sums have them, and the numbers that matter to it."""

LEAST, GREATEST = -2**63, 2**63 - 1
LATEST = 10**15
SMALLEST_ROOM = 4_096
LONGEST_PACKET = 512

# At the ends of the range, and where a sum of two or a half is near them.
ENDS = [LEAST, LEAST + 1, GREATEST, GREATEST - 1, -2**62, 2**62, -2**62 - 1, 2**62 + 1,
        GREATEST - 999_999, GREATEST - 1_000_000, LEAST + 500_000, GREATEST - 500_000]

# By how much one number differs from another where the engine compares them: origins, offsets, shared times.
STEPS = [0, 0, 0, 1, -1, 2, -3, 499, 500, 501, -500, -501, 1_000, -2_001, 400_000, 500_000, 500_001, -500_000,
         -500_001, 1_000_000, -1_000_000, 3_000_000, -7_000_000]


def wrap(value):
    return (value - LEAST) % 2**64 + LEAST


def wraps(value):
    return wrap(value) != value


def toward_zero(value, divisor):
    return -(-value // divisor) if value < 0 else value // divisor


def half(value):
    return toward_zero(value, 2)


def median(offsets):
    return sorted(offsets)[len(offsets) // 2] if offsets else 0
