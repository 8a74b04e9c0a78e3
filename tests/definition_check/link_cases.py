"""Where the engine parts from what Link's documents describe, or from what Link itself does: short cases,
written by hand."""

from engine_runs.boxes import Line, StartStop
from definition_check.example_calls import (
    COUNT, DESTINATIONS, KINDS, LINE, MEASURING, OFFSET, OFFSETS, SENT_LINES, SENT_START_STOPS, SESSION, START_STOP, STATES, TIMEOUTS,
    Case, Example, alive, beat, bye, commits, on, ping, placed, pong, pong_after, pong_for, tick)

LARGEST = 2**63 - 1

FAST = Line(1_000_000, 1, 0)
FAST_AT_0 = Line(1_000_000, 0, 0)
STARTED = StartStop(True, 0, 7)
STOPPED = StartStop(False, 0, 0)

# ---- node 1 in a session of its own

JOINED = [on(0), alive(2, 0, session=1, of_line=FAST), alive(3, 0)]
LATEST = [on(0), alive(2, 0, session=1, of_start_stop=StartStop(False, 0, LARGEST)), commits(0, beat(0), StartStop(True, 0, 5))]
HIGHEST = [on(0), alive(2, 0, session=1, of_line=beat(LARGEST)), commits(0, beat(5, 400_000))]
CARRIED = [on(0), alive(2, 0, session=7, of_line=FAST)]
CARRIED_AT_0 = [on(0), alive(2, 0, session=7, of_line=FAST_AT_0)]
AHEAD = [on(0), alive(2, 0, session=1), pong(2, 0, 1, 0), commits(0, beat(0), StartStop(True, 0, 6_000_000))]
NEWS = [placed(), on(0), alive(2, 0, session=1, addr=7)]
SHARED_ADDRESS = [on(0), alive(2, 0, session=1, port=7), alive(3, 0, session=1, port=7), pong(3, 0, 1, 0, port=7)]
ASKED = [on(0), alive(2, 0, session=1), *[tick(50_000 * count) for count in range(1, 5)]]
MEASURED = [on(0), alive(2, 0, session=1), *[pong_for(2, 0, 1, 0, 2 * count) for count in range(20)]]

# ---- node 9, which comes into session 1

FOUND = [on(0), alive(1, 0, session=1)]
COME = [placed(), on(0), alive(1, 0, session=1, of_line=beat(0)), pong(1, 0, 1, 0)]
ELECTION = [alive(3, 0), bye(3, 0)]
GIVEN_UP = [*FOUND, *[tick(50_000 * count) for count in range(1, 6)]]
LEFT = [on(0), alive(1, 0, session=1), pong(1, 0, 1, 100_000), bye(1, 0)]
RETURNED = [alive(2, 0, session=2), pong(2, 0, 2, 0), pong_after(2, 0, 1, 100_000, 0)]


def joined(of_start_stop):
    return [alive(1, 0, session=1, of_line=beat(0), of_start_stop=of_start_stop), pong(1, 0, 1, 0)]


LINK = [
    Example('joined_line_taken',
            'Joining is to leave the tempo of the session (TEMPO-2). A line that is announced under our session counts in '
            'the next election, for whatever reason that is held, though its sender was never measured.',
            [Case(1, JOINED, [LINE]), Case(1, [*JOINED, *ELECTION[1:]], [LINE])]),
    Example('carried_line',
            "A pong that changes a neighbour's session leaves the line that it announced for the other one, which then "
            'counts in the new one; not where its beat origin is 0, as ours is.',
            [Case(1, CARRIED, [LINE]), Case(1, [*CARRIED, pong(2, 0, 1, 0)], [LINE]), Case(1, [*CARRIED_AT_0, pong(2, 0, 1, 0)], [LINE])]),
    Example('enabling_at_origin_0',
            'Enabling is to keep the beat at every time (BEATTIME-1). A time origin of 0 becomes the time of the call. '
            'Enabled at 0 nothing changes, and a state is put out all the same.',
            [Case(1, [on(500_000)], [LINE]), Case(1, [on(0)], [LINE, STATES])]),
    Example('line_from_time_0',
            'The line of a new instance is to run from beat 0 at its making. It does so from time 0 of the host clock: half a '
            'second later the beat is 1, whenever the engine was made.',
            [Case(1, [tick(500_000)], [LINE])]),
    Example('beats_of_the_session',
            "How large a beat is, is to be each participant's own, only its phase shared. Joining takes the session's beats.",
            [Case(9, [*FOUND, alive(1, 0, session=1, of_line=beat(7_000_000)), pong(1, 0, 1, 0)], [LINE])]),
    Example('no_tempo_bounds',
            'Tempos are to be from 20 to 999 beats a minute. Any is taken.',
            [Case(1, [commits(0, beat(1, tempo))], [LINE]) for tempo in (1, 60_000_000, 0, -1)]),
    Example('any_tempo_heard',
            'A tempo that is heard is to be brought within these bounds. It is taken as it is: here 1,500 beats a minute.',
            [Case(1, [on(0), alive(2, 0, session=1), pong(2, 0, 1, 0), alive(2, 0, session=1, of_line=beat(1, 40_000))], [LINE])]),
    Example('no_later_start',
            'The later start or stop is to stand. Where one at the largest time is known, what is committed wraps to the '
            'smallest, and the next election takes the known one again.',
            [Case(1, LATEST, [START_STOP]), Case(1, [*LATEST, *ELECTION], [START_STOP])]),
    Example('no_room_above',
            'A tempo change is to reach the others. Where the largest beat origin is known, a committed line wraps below '
            'it, and the next election takes the known line again.',
            [Case(1, HIGHEST, [LINE]), Case(1, [*HIGHEST, *ELECTION], [LINE])]),
    Example('start_stop_always_shared',
            "Sharing start and stop is to be a participant's choice. Every alive has them, and there is no switch.",
            [Case(1, [placed(), on(0), tick(250_000)], [SENT_START_STOPS])]),
    Example('joining_takes_start_stop',
            "Joining is to leave one's own start-stop state (STARTSTOPSTATE-2). One that is stopped plays as soon as it joins a "
            'session that plays, and one that plays stops in one that is stopped.',
            [Case(9, [on(0), *joined(STARTED)], [START_STOP]),
             Case(9, [on(0), commits(0, beat(0), STARTED), *joined(STOPPED)], [START_STOP])]),
    Example('start_ahead_holds',
            'A stop is to end what was started before it. The time of a start is also its rank: one that is committed for 6,000,000 '
            "outranks a neighbour's stop at 1,000,000, while our own stop then is put at 6,000,001.",
            [Case(1, [*AHEAD, alive(2, 1_000_000, session=1, of_start_stop=StartStop(False, 0, 1_000_000))], [START_STOP]),
             Case(1, [*AHEAD, commits(1_000_000, beat(0), StartStop(False, 0, 1_000_000))], [START_STOP])]),
    Example('readopted_leaves_line',
            'The phase is to be that of the session. An offset that is 500 off stays; one that is 501 off is put right, and our line '
            'stays at its host time, so that we announce it 501 microseconds beside that of the session.',
            [Case(9, [*COME, pong_for(1, 0, 1, 500, 2), *ELECTION], [OFFSET]),
             Case(9, [*COME, pong_for(1, 0, 1, 501, 2), *ELECTION], [OFFSET, LINE]),
             Case(9, [*COME, pong_for(1, 0, 1, 501, 2), *ELECTION, tick(250_000)], [SENT_LINES])]),
    Example('measured_once',
            'The relation between two clocks is to be kept up. After 20 samples a neighbour is not asked again, here for 30 seconds.',
            [Case(1, MEASURED, [MEASURING]),
             Case(1, [*MEASURED, *[alive(2, 6_000_000 * count, session=1) for count in range(1, 6)]], [MEASURING, TIMEOUTS])]),
    Example('discovered_before_measured',
            'Whoever is discovered is to be in the session at once. One of an older session counts only when it has been measured.',
            [Case(9, FOUND, [SESSION, COUNT]), Case(9, [*FOUND, pong(1, 0, 1, 0)], [SESSION, COUNT])]),
    Example('given_up_for_good',
            'The same. One that did not answer five pings is never asked again while it stays in its session, though it announces '
            'itself: we stay out of it.',
            [Case(9, GIVEN_UP, [MEASURING]),
             Case(9, [*GIVEN_UP, alive(1, 5_000_000, session=1), alive(1, 10_000_000, session=1)], [MEASURING, SESSION, COUNT])]),
    Example('session_outlives_founder',
            'The last one in a session stays in it, under the id of the one that left.',
            [Case(9, LEFT, [SESSION, OFFSET, COUNT])]),
    Example('wrong_sample_adopted',
            'Anyone is to join and leave without harm. Where the founder has left, and one that comes back has just changed into the session, '
            'its first sample is off by a quarter of the change and is adopted: 75,000 for 100,000.',
            [Case(9, LEFT, [OFFSET]), Case(9, [*LEFT, *RETURNED], [SESSION, OFFSET])]),
    Example('unmeasured_line_waits',
            'A tempo is to be followed at once. A new line of our session is not taken on the alive that has it where its sender has no sample.',
            [Case(1, [on(0), alive(2, 0, session=1), alive(2, 0, session=1, of_line=FAST)], [LINE])]),
    Example('pong_of_the_smaller_id',
            'Two ids at one address, as of a box that came back and whose bye was lost: the pong is taken for the smaller one, so that the '
            'other gets no sample, and a tempo of it is not followed.',
            [Case(1, SHARED_ADDRESS, [OFFSETS]), Case(1, [*SHARED_ADDRESS, alive(3, 0, session=1, of_line=FAST, port=7)], [LINE])]),
    Example('answers_only_news',
            'An alive is answered only where something in it is new, and at the address that it says, 7, not at that of its sender, 2.',
            [Case(1, NEWS, [DESTINATIONS]), Case(1, [*NEWS, alive(2, 1, session=1, addr=7)], [DESTINATIONS])]),
    Example('five_anew_after_a_sample',
            'A sample begins the five unanswered pings anew.',
            [Case(1, ASKED, [TIMEOUTS]), Case(1, [*ASKED, pong(2, 200_000, 1, 0), *[tick(50_000 * count) for count in range(5, 10)]],
                                              [TIMEOUTS, MEASURING])]),
    Example('zero_is_a_sample',
            'A pong of shared time 0 is a sample.',
            [Case(1, [on(0), alive(2, 0, session=1), pong(2, 0, 1, 0)], [OFFSETS])]),
    Example('pings_answered',
            'A ping with 48 bytes of entries is answered; one without a time is not.',
            [Case(1, [on(0), ping(2, 0, '__ht _pgt sess')], [KINDS]), Case(1, [on(0), ping(2, 0, 'sess')], [KINDS])]),
]
