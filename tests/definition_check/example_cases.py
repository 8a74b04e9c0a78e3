"""Worked examples, chosen so that slips in the definition show."""

from engine_runs.boxes import StartStop
from definition_check.example_calls import (
    IDS, KINDS, LINE, LINES, MEASURING, NODE, BYTES, OFFSET, OFFSETS, PING_TIMES, SESSION, SESSIONS, START_STOP, STATES, TIMEOUTS, TIMERS,
    Case, Example, alive, beat, bye, commits, off, on, pong, pong_for, previewed, tick)

SMALLEST, LARGEST = -2**63, 2**63 - 1
LATEST = 10**15

SEEN = [on(0), alive(2, 0)]
COMPANY = [on(0), alive(2, 0, session=1), pong(2, 0, 1, 9_000)]
ELSEWHERE = [on(0), alive(2, 0, session=0), pong(2, 0, 0, 0), alive(3, 0, session=0)]
RACING = [
    on(0), alive(2, 0, session=2), pong(2, 0, 2, -600_000), alive(3, 0, session=3), pong(3, 0, 3, -600_000),
    *[pong_for(2, 0, 2, 600_000, time) for time in (2, 4)], *[pong_for(3, 0, 3, 700_000, time) for time in (2, 4)],
    alive(9, 0), bye(9, 0)]
PLAYING = [commits(0, beat(0), StartStop(True, 0, 70))]
ASKED = SEEN + [tick(50_000 * count) for count in range(1, 5)]
KNOWN = [on(0), alive(2, 0, session=1, of_line=beat(8_000_000)), alive(3, 0, session=7, of_line=beat(90_000_000))]
ONE_PORT = [alive(2, 0, session=1, port=7), alive(3, 0, session=1, port=7), pong(3, 0, 1, 4, port=7)]
TWO_PORTS = [alive(2, 0, session=1, port=6), alive(3, 0, session=7, port=7), pong(2, 0, 1, 4, port=7)]
ABOUT_TO_LAPSE = [on(0), alive(2, 0), alive(3, 1, session=1, of_start_stop=StartStop(True, 0, 70))]
HELD = [on(0), commits(0, beat(1))]
AT_THE_END = [commits(0, beat(LARGEST))]
COUNTED = [on(0), alive(2, 0, session=1), pong(2, 0, 1, 5)]

EXAMPLES = [
    Example('own_session_not_readopted',
            "In the session of our own node's id an offset is never readopted, however far off.",
            [Case(1, COMPANY, [SESSION, OFFSET])]),
    Example('foreign_session_readopted',
            'In another one it is, from a difference of 501 on.',
            [Case(1, ELSEWHERE + [pong(3, 0, 0, 500)], [SESSION, OFFSET]),
             Case(1, ELSEWHERE + [pong(3, 0, 0, 501)], [OFFSET])]),
    Example('win_moves_the_comparison',
            'Session 2 is ahead of ours by 600,000 and session 3 by 700,000. In the election of the bye 2 wins; 3 is then '
            'within 500,000 of the best and has the larger id.',
            [Case(1, RACING, [SESSION, OFFSET, OFFSETS])]),
    Example('dropped_at_6000001',
            'Seen exactly 6,000,000 ago a neighbour stays, and a microsecond later it goes.',
            [Case(1, SEEN + [tick(6_000_000)], [IDS]), Case(1, SEEN + [tick(6_000_001)], [IDS])]),
    Example('timer_of_a_lapsed',
            'The timer is for the next ping of a neighbour that goes in this very call.',
            [Case(1, SEEN + [tick(6_000_001)], [IDS, TIMERS])]),
    Example('own_start_stop_counts',
            'A start or stop that is not later than our own becomes that and 1, with no neighbour there.',
            [Case(1, PLAYING + [commits(0, beat(0), StartStop(False, 0, 70))], [START_STOP]),
             Case(1, PLAYING + [commits(0, beat(0), StartStop(False, 0, 72))], [START_STOP])]),
    Example('node_id_after_off',
            'Switching off adds 1 to the node id, and the largest becomes 0.',
            [Case(1, [on(0), off(0)], [NODE, SESSION]), Case(2**64 - 1, [on(0), off(1)], [NODE])]),
    Example('five_asks_and_no_sixth',
            'A neighbour that does not answer is asked five times; the sixth due call ends measuring.',
            [Case(1, ASKED, [TIMEOUTS, MEASURING]), Case(1, ASKED + [tick(250_000)], [TIMEOUTS, MEASURING])]),
    Example('last_duplicate_counts',
            'Of two lines in an alive the last one counts.',
            [Case(1, [on(0), alive(2, 0, of_line=beat(1), twice=beat(2))], [LINES])]),
    Example('elected_by_id_or_time',
            'Within 500,000 the smaller session id wins; a larger one must be ahead by more.',
            [Case(5, [on(0), alive(9, 0, session=4), pong(9, 0, 4, -500_000)], [SESSION]),
             Case(5, [on(0), alive(9, 0, session=6), pong(9, 0, 6, 500_000)], [SESSION]),
             Case(5, [on(0), alive(9, 0, session=6), pong(9, 0, 6, 500_001)], [SESSION])]),
    Example('moved_above_the_session',
            'A committed line is moved above what is known in our session, and not above what is known in another.',
            [Case(1, KNOWN + [commits(0, beat(7_999_999, 500_001))], [LINE]),
             Case(1, KNOWN + [commits(0, beat(8_000_001, 500_001))], [LINE])]),
    Example('owner_by_address',
            "A pong belongs to the neighbour with the sender's address, whatever session it names.",
            [Case(1, [on(0)] + TWO_PORTS, [IDS, SESSIONS, OFFSETS]),
             Case(1, [on(0)] + ONE_PORT, [IDS, OFFSETS])]),
    Example('no_election_on_a_new_session',
            'An alive with another session clears the samples, restarts measuring and elects nothing: the line that node 3 '
            'has announced in our session is not taken yet.',
            [Case(1, COMPANY + [alive(3, 0, session=1, of_line=beat(5)), alive(2, 0, session=0)],
                  [SESSION, OFFSETS, MEASURING, LINE])]),
    Example('pong_does_not_restart',
            'A pong with another session replaces the one held, and does not restart measuring that has ended. (It comes a '
            'little earlier than the last call, so that no ping is due.)',
            [Case(1, ASKED + [tick(250_000), pong(2, 249_999, 5, 0)], [SESSIONS, OFFSETS, MEASURING])]),
    Example('commit_while_disabled',
            'A commit while disabled puts out the state alone.',
            [Case(1, [commits(0, beat(1))], [KINDS, LINE])]),
    Example('empty_answer',
            'While disabled a tick puts out nothing: four zero bytes.',
            [Case(1, [tick(0)], [BYTES])]),
    Example('first_report_counts',
            'A commit of a line in which node 2 goes: the election that follows takes the later start that node 3 has announced, and '
            'the commit reports twice. The preview has the first of the two states.',
            [Case(1, [*ABOUT_TO_LAPSE, commits(6_000_001, beat(1))], [STATES]),
             Case(1, ABOUT_TO_LAPSE, [previewed(6_000_001, beat(1))])]),
    Example('preview_of_the_held',
            'A commit of the held state reports nothing, and its preview has that state, moved by 0.',
            [Case(1, [*HELD, commits(0, beat(1))], [STATES]), Case(1, HELD, [previewed(0, beat(1))])]),
    Example('moved_negative',
            'Above the largest beat origin the sum wraps, and the move comes out negative.',
            [Case(1, AT_THE_END, [previewed(0, beat(5))])]),
    Example('moved_0_by_a_wrap',
            'Far enough below it the sum wraps to the asked beat origin: the line is moved, by 0.',
            [Case(1, AT_THE_END, [previewed(0, beat(SMALLEST + 999_999))])]),
    Example('preview_refused_by_time',
            'The times from 0 to 10^15 are taken, and no others.',
            [Case(1, [on(0)], [previewed(time, beat(1)) for time in (-1, 0, LATEST, LATEST + 1)])]),
    Example('ping_time_not_now',
            'What is held of a pong is the time of its ping, 2, not that of the call, 9: a pong to a ping of 9 counts then.',
            [Case(1, [on(0), alive(2, 0), pong_for(2, 9, 1, 5, 2)], [OFFSETS, PING_TIMES]),
             Case(1, [on(0), alive(2, 0), pong_for(2, 9, 1, 5, 2), pong_for(2, 9, 1, 6, 9)], [OFFSETS, PING_TIMES])]),
    Example('ping_time_of_each',
            'One ping time counts at two neighbours, and once at each.',
            [Case(1, [*COUNTED, alive(3, 0, session=1), pong(3, 0, 1, 6), pong(3, 0, 1, 7), pong(2, 0, 1, 8)], [OFFSETS, PING_TIMES])]),
    Example('counted_again_once_cleared',
            'A pong that names another session clears and counts, once; and so does the first after an alive with another session.',
            [Case(1, [*COUNTED, pong(2, 0, 3, 6), pong(2, 0, 3, 7)], [SESSIONS, OFFSETS, PING_TIMES]),
             Case(1, [*COUNTED, alive(2, 0, session=3), pong(2, 0, 3, 6), pong(2, 0, 3, 7)], [SESSIONS, OFFSETS, PING_TIMES])]),
]
