"""Inputs of chanexplore with their whole reports, as docs/TOOLS.md says them.

Each stands as the arguments, the lines of the input, the head of the report, and its outcomes, each
as its first line, the last reply to each line, and the script behind it.
"""

RACE = "bounded 1 / party a / try_send s0 1 / party b / try_send s0 2 / party c / try_send s0 3"

REPORTS = {
    "a stream that is awaited": (
        [],
        "unbounded / party reader / await r0 / party writer / try_send s0 7",
        "orders 2 / outcomes 1 / stuck 0",
        [(
            "outcome 1: 2 orders",
            "reader: await r0 => some 7 / writer: try_send s0 7 => ok",
            "unbounded / next r0 / try_send s0 7 / next r0",
        )],
    ),
    "an operation that is awaited": (
        [],
        "unbounded / recv o0 r0 / party reader / await o0 / party writer / try_send s0 7",
        "orders 2 / outcomes 1 / stuck 0",
        [(
            "outcome 1: 2 orders",
            "reader: await o0 => ok 7 / writer: try_send s0 7 => ok",
            "unbounded / recv o0 r0 / poll o0 / try_send s0 7 / poll o0",
        )],
    ),
    "a pending poll at the end": (
        [],
        "unbounded / recv o0 r0 / party one / poll o0",
        "orders 1 / outcomes 1 / stuck 0",
        [("outcome 1: 1 order", "one: poll o0 => pending", "unbounded / recv o0 r0 / poll o0")],
    ),
    "a pending stream at the end": (
        [],
        "unbounded / party one / next r0",
        "orders 1 / outcomes 1 / stuck 0",
        [("outcome 1: 1 order", "one: next r0 => pending", "unbounded / next r0")],
    ),
    "a party that awaits for ever": (
        [],
        "unbounded / party one / await r0 / len r0 / len s0",
        "orders 1 / outcomes 1 / stuck 1",
        [(
            "outcome 1: 1 order, stuck",
            "one: await r0 => pending / one: len r0 not reached / one: len s0 not reached",
            "unbounded / next r0",
        )],
    ),
    "the second party awaits for ever": (
        [],
        "unbounded / recv o0 r0 / party one / len s0 / party two / await o0",
        "orders 2 / outcomes 1 / stuck 1",
        [(
            "outcome 1: 2 orders, stuck",
            "one: len s0 => 0 / two: await o0 => pending",
            "unbounded / recv o0 r0 / len s0 / poll o0",
        )],
    ),
    "eleven orders": (
        [],
        "unbounded / party one" + " / len s0" * 10 + " / party two / len r0",
        "orders 11 / outcomes 1 / stuck 0",
        [(
            "outcome 1: 11 orders",
            "one: len s0 => 0 / " * 10 + "two: len r0 => 0",
            "unbounded" + " / len s0" * 10 + " / len r0",
        )],
    ),
    "the third party awaits for ever": (
        [],
        "unbounded / party one" + " / len s0" * 5 + " / party two / len r0 / party last / await r0",
        "orders 42 / outcomes 1 / stuck 1",
        [(
            "outcome 1: 42 orders, stuck",
            "one: len s0 => 0 / " * 5 + "two: len r0 => 0 / last: await r0 => pending",
            "unbounded" + " / len s0" * 5 + " / len r0 / next r0",
        )],
    ),
    "an await that is refused": (
        [],
        "unbounded / recv o0 r0 / party one / poll o0 / party two / await r0",
        "orders 2 / outcomes 1 / stuck 0",
        [(
            "outcome 1: 2 orders",
            "one: poll o0 => pending / two: await r0 => refused: borrowed",
            "unbounded / recv o0 r0 / poll o0 / next r0",
        )],
    ),
    "what is awaited is given up": (
        [],
        "unbounded / recv o0 r0 / party waits / await o0 / party gives_up / drop o0",
        "orders 2 / outcomes 2 / stuck 1",
        [
            (
                "outcome 1: 1 order, stuck",
                "waits: await o0 => pending / gives_up: drop o0 => done",
                "unbounded / recv o0 r0 / poll o0 / drop o0",
            ),
            (
                "outcome 2: 1 order",
                "waits: await o0 => refused: unknown / gives_up: drop o0 => done",
                "unbounded / recv o0 r0 / drop o0 / poll o0",
            ),
        ],
    ),
    "a refused line is a party's last": (
        [],
        "unbounded / party one / try_send s7 1 / len s0",
        "orders 1 / outcomes 1 / stuck 0",
        [(
            "outcome 1: 1 order",
            "one: try_send s7 1 => refused: unknown / one: len s0 not reached",
            "unbounded / try_send s7 1",
        )],
    ),
    "lines before the parties": (
        [],
        "bounded 2 / drop s9 / try_send s0 1 / recv o0 r0 / settle / party a / len r0 / is_full s0",
        "orders 1 / outcomes 1 / stuck 0",
        [(
            "outcome 1: 1 order",
            "a: len r0 => 1 / a: is_full s0 => false",
            "bounded 2 / drop s9 / try_send s0 1 / recv o0 r0 / settle / len r0 / is_full s0",
        )],
    ),
    "no party": (
        [],
        "unbounded / len s0",
        "orders 1 / outcomes 1 / stuck 0",
        [("outcome 1: 1 order", "", "unbounded / len s0")],
    ),
    "parties without lines": (
        [],
        "unbounded / recv o0 r0 / poll o0 / party empty / party asks / notice o0 / party last",
        "orders 1 / outcomes 1 / stuck 0",
        [(
            "outcome 1: 1 order", "asks: notice o0 => untold",
            "unbounded / recv o0 r0 / poll o0 / notice o0",
        )],
    ),
    "three parties": (
        [],
        RACE,
        "orders 6 / outcomes 3 / stuck 0",
        [
            (
                "outcome 1: 2 orders",
                "a: try_send s0 1 => ok / b: try_send s0 2 => full 2 / c: try_send s0 3 => full 3",
                "bounded 1 / try_send s0 1 / try_send s0 2 / try_send s0 3",
            ),
            (
                "outcome 2: 2 orders",
                "a: try_send s0 1 => full 1 / b: try_send s0 2 => ok / c: try_send s0 3 => full 3",
                "bounded 1 / try_send s0 2 / try_send s0 1 / try_send s0 3",
            ),
            (
                "outcome 3: 2 orders",
                "a: try_send s0 1 => full 1 / b: try_send s0 2 => full 2 / c: try_send s0 3 => ok",
                "bounded 1 / try_send s0 3 / try_send s0 1 / try_send s0 2",
            ),
        ],
    ),
    "three of six orders": (
        ["--orders", "3"],
        RACE,
        "orders 3, and more: the limit is met / outcomes 2 / stuck 0",
        [
            (
                "outcome 1: 2 orders",
                "a: try_send s0 1 => ok / b: try_send s0 2 => full 2 / c: try_send s0 3 => full 3",
                "bounded 1 / try_send s0 1 / try_send s0 2 / try_send s0 3",
            ),
            (
                "outcome 2: 1 order",
                "a: try_send s0 1 => full 1 / b: try_send s0 2 => ok / c: try_send s0 3 => full 3",
                "bounded 1 / try_send s0 2 / try_send s0 1 / try_send s0 3",
            ),
        ],
    ),
}


def lines_of(text):
    return "".join(f"{line}\n" for line in text.split(" / ") if line)


def reports():
    """Each input: its name, its arguments, the input, its report, and whether that is all."""
    for name, (arguments, given, head, outcomes) in REPORTS.items():
        blocks = [
            f"\n{first}\n{lines_of(lines)}script\n{lines_of(script)}"
            for first, lines, script in outcomes
        ]
        yield name, arguments, lines_of(given), lines_of(head) + "".join(blocks), "more" not in head
