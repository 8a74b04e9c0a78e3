"""Where the engine parts from what the papers say, or from what the source says of itself: the smallest cases that were
found."""

from engine_runs.boxes import Line, StartStop
from definition_check.example_calls import (
    IDS, KINDS, MEASURING, NEXT_BROADCAST, OFFSET, OFFSETS, PING_TIMES, SESSION, START_STOP, STATES, TIMERS, Case, Example, alive, beat, bye,
    commits, on, placed, pong, pong_after, pong_for, tick)

SMALLEST = -2**63

FAST = Line(1_000_000, 1, 0)
BEHIND = [on(0), alive(2, 0, session=0)]
BESIDE = [*BEHIND, pong(2, 0, 0, 0), alive(3, 0, session=0)]
AHEAD = [alive(3, 0, session=3), pong(3, 0, 3, 500_001)]
WON = [
    *BEHIND, pong(2, 0, 0, -600_001), alive(3, 0, session=0), pong(3, 0, 0, -600_001),
    *[pong_for(2, 0, 0, 0, time) for time in (2, 4)], *[pong_for(3, 0, 0, 501, time) for time in (2, 4)], alive(9, 0)]
MOVED = [on(0), alive(2, 0, session=1), pong(2, 0, 1, 100_000), alive(3, 0, session=3), pong(3, 0, 3, 0)]
ELECTED_LATE = [placed(), on(0), alive(2, 0), alive(3, 1_000_000, session=1, of_line=FAST)]
ANSWER, MET = pong(2, 0, 1, 7), [on(0), alive(2, 0, session=1)]

DIFFERENCES = [
    Example('no_broadcast_floor',
            'The source quotes a hard floor of 50 ms between broadcasts. Commits at 0 and at 1 both broadcast.',
            [Case(1, [placed(), on(0), commits(0, beat(1))], [KINDS]),
             Case(1, [placed(), on(0), commits(0, beat(1)), commits(1, beat(2))], [KINDS])]),
    Example('broadcast_after_upkeep',
            'The source means to broadcast as soon as possible after an election. One that upkeep holds comes after its '
            'broadcast: a broadcast is then due at once, and the timer does not count it.',
            [Case(1, [*ELECTED_LATE, tick(6_000_001)], [KINDS, STATES, NEXT_BROADCAST, TIMERS])]),
    Example('smallest_within',
            'A session that is behind by more than 500,000 is to lose, and an offset that differs by more than 500 to be '
            'readopted. The size of the smallest number wraps to itself, so that it counts as within both; that of 1 more does not.',
            [Case(1, [*BEHIND, pong(2, 0, 0, SMALLEST)], [SESSION]), Case(1, [*BEHIND, pong(2, 0, 0, SMALLEST + 1)], [SESSION]),
             Case(1, [*BESIDE, pong(3, 0, 0, SMALLEST)], [OFFSET]), Case(1, [*BESIDE, pong(3, 0, 0, SMALLEST + 1)], [OFFSET])]),
    Example('readopted_moves_comparison',
            'Wins are to move the comparison. A readopted offset does so in the same election too: session 3 is ahead of ours '
            'by 500,001 and wins, and loses where node 2 of our session has a new offset of 501.',
            [Case(1, [*BEHIND, pong(2, 0, 0, 0), *AHEAD], [SESSION]),
             Case(1, [*BEHIND, pong(2, 0, 0, 0), pong_for(2, 0, 0, 501, 2), *AHEAD], [SESSION])]),
    Example('won_readopted',
            'An offset is to be readopted in the same session. That is the best one so far, also where it has only just won: '
            'session 0 wins by node 2 with the offset 0, and node 3 of that session gives it 501.',
            [Case(1, [*WON, bye(9, 0)], [SESSION, OFFSET])]),
    Example('won_back',
            "In the session of our own node's id no offset is to be readopted. One that leaves it and wins back in the same "
            'election brings its offset along.',
            [Case(9, [on(0), alive(3, 0, session=9), pong(3, 0, 9, 7), alive(2, 0, session=20), pong(2, 0, 20, 500_001)],
                  [SESSION, OFFSET, KINDS])]),
    Example('any_change_moves_the_time',
            'A changed start-stop time is to be moved above those known. It is where anything of the start-stop state is '
            'changed: here only whether it plays.',
            [Case(1, [commits(0, beat(0), StartStop(True, 0, 0))], [START_STOP])]),
    Example('no_session_is_another',
            'An alive with another session is to restart measuring. One that names none, where one is held, does so too.',
            [Case(9, [on(0), alive(1, 0, session=1), pong(1, 0, 1, 0), alive(1, 0)], [OFFSETS, MEASURING])]),
    Example('sample_across_sessions',
            "A sample is to be how far a neighbour's shared time is from our clock. The first after its change of session still has "
            'the shared time before that, of the old session: session 1 is 100,000 ahead, node 2 gave just that, and the sample of '
            'node 3 is 75,000. The election that it calls for takes it.',
            [Case(9, MOVED, [SESSION, OFFSET]), Case(9, [*MOVED, pong_after(3, 0, 1, 100_000, 0)], [SESSION, OFFSET, OFFSETS])]),
    Example('answering_is_not_seen',
            'A neighbour that is heard is to stay. Only its alives count as seen: one that answers a ping a microsecond before '
            'goes all the same.',
            [Case(1, [on(0), alive(2, 0), pong(2, 6_000_000, 1, 0), tick(6_000_001)], [IDS])]),
    Example('timer_at_the_edge',
            'The timer is to be for what is done next. A neighbour seen exactly 6 seconds ago stays, and the timer is for that very '
            'moment: a call at that time asks for it again.',
            [Case(1, [on(0), alive(2, 0), tick(6_000_000)], [IDS, TIMERS]),
             Case(1, [on(0), alive(2, 0), tick(6_000_000), tick(6_000_000)], [IDS, TIMERS])]),
    Example('doubled_pong',
            'The Rust counts a pong as often as it comes, and has two samples of one that comes twice. Here it counts once.',
            [Case(1, [*MET, *[ANSWER] * times], [OFFSETS, PING_TIMES]) for times in (1, 2)]),
]
