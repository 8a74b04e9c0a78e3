"""Where the methods of a session's state part from Link's documents: cases with ordinary numbers."""

from collections import namedtuple

from definition_check.value_methods import DEFAULT, remainder

# A case: its name, what it shows, and a function that asks the oracle what is stated.
ValueCase = namedtuple('ValueCase', 'name comment asked')

MINUTE = 60_000_000.0


def beat_of_its_time():
    beats = (0.000001, 1 / 3)
    times = [DEFAULT.time_at(beat) for beat in beats]
    return [said for time in times for said in (time, DEFAULT.beat_at(time))]


def phase_beside_remainder():
    return [remainder(DEFAULT.beat_at(1), 4.0), DEFAULT.phase_at(1, 4.0)]


def phase_out_of_range():
    fast = DEFAULT.with_tempo(MINUTE, 0)
    far = -200_000_000_000_000_000
    return [
        fast.beat_at(far), fast.phase_at(far, 11.0),
        DEFAULT.beat_at(-500_000), DEFAULT.phase_at(-500_000, 1.1e-16),
        DEFAULT.beat_at(500_000), DEFAULT.phase_at(500_000, 5e-324)]


def forced_beat_rounded():
    return [DEFAULT.forced(0, 1 / 3).beat_at(0), DEFAULT.requested(0, 1 / 3).beat_at(0)]


def tempo_change_rounds():
    slow = DEFAULT.with_tempo(20.0, 0)
    return [slow.beat_at(1_000_000), slow.with_tempo(120.0, 1_000_000).beat_at(1_000_000)]


def request_in_company():
    return [DEFAULT.phase_at(0, 4.0), DEFAULT.requested(0, 1.0).beat_origin()]


VALUE_CASES = [
    ValueCase('beat_of_its_time',
              'The beat at the time of a beat is to be that beat. The time is cut to a whole microsecond, toward 0: at 120 beats '
              'a minute beat 0.000001 has the time 0, whose beat is 0, and beat 1/3 the time 166,666, whose beat is 0.333332.',
              beat_of_its_time),
    ValueCase('phase_beside_remainder',
              'The phase of a beat from 0 on is to be its remainder by the quantum. A quantum is added before the remainder is '
              'taken, and that sum rounds: a microsecond after the origin, at 120 beats a minute, the beat is 0.000002 and so '
              'is its remainder by 4, but the phase is 0.000002000000000279556.',
              phase_beside_remainder),
    ValueCase('phase_out_of_range',
              'The phase is to be from 0 to below the quantum. Where the beat is more than 2^53 quanta below 0, it can be negative: '
              'beat -200,000,000,000,000,000, at one microsecond a beat, has the phase -10 in 11, and beat -1, at 120 beats '
              'a minute, that of about -10^-18 in 1.1 * 10^-16. Where the quanta in the beat are more than the largest number, '
              'it is none: beat 1 in the smallest quantum there is, about 5 * 10^-324.',
              phase_out_of_range),
    ValueCase('forced_beat_rounded',
              'A beat that is forced, or requested alone, is to be the beat at that time. The beat origin is rounded to '
              'millionths: beat 1/3 becomes 0.333333.',
              forced_beat_rounded),
    ValueCase('tempo_change_rounds',
              'A tempo change is to leave the beat at its time. That is rounded to millionths: at 20 beats a minute it is beat 1/3 '
              'after a second, and 0.333333 where the tempo then becomes 120.',
              tempo_change_rounds),
    ValueCase('request_in_company',
              'In company a requested beat is to wait for its phase. It is forced at once, whatever the quantum: at the time origin, where the '
              'phase in 4 is 0, beat 1 is asked for, and the beat origin is 1,000,000.',
              request_in_company),
]
