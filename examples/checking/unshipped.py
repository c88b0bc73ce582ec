"""What no shipped file shows: texts at their limits, files that are missing, closed output, words.

Each list of cases has rows of a name, the words, and status and outputs.
"""
from pathlib import Path

from checking.pages import read_messages
from checking.running import HEAD, ONE_CUSTOMER, judge, run

USAGE = "urpf: usage: check SESSION SOURCE | offline CONFIG BOOK PAIRS S... | live CONFIG BOOK PAIRS S... : P...\n"

SESSION = "examples/announce-one-prefix.session"
TRACE = "examples/one-full-session.trace"
BOOK = "examples/one-publication.book"
EMPTY_BOOK = "cases/runbooks/empty.book"
REFUSED_BOOK = "examples/line-off-the-grammar.book"

PUBLISHED = "publish 1 edits 0 cells 0 items 0\n"
NONE_PASSES = "check 0 198.51.100.9 drop 1\ncheck 0 198.51.101.0 drop 1\n"


def offline(book, *traces, config=ONE_CUSTOMER, pairs="none"):
    """The words of a run."""
    return ["offline", config, book, pairs, *traces]


def check_cases(cases, output=""):
    """Runs a list of cases."""
    for name, words, *wanted in cases:
        judge(name, tuple(wanted), run(words, output))


def check_limits(work):
    """Texts at their limits and one octet past them, and a trace that is longer."""

    def made(name, octets):
        (work / name).write_bytes(octets)
        return str(work / name)

    config = Path(ONE_CUSTOMER).read_bytes()
    long_stream = made("long.session", bytes(16_777_217))
    full_stream = made("full.session", bytes(16_777_216))
    long_config = made("long.toml", b" " * 1_048_577)
    full_config = made("full.toml", config + b"\n" * (1_048_576 - len(config)))
    long_book = made("long.book", b"\n" * 1_048_577)
    empty_lines = made("full.book", b"\n" * 1_048_576)
    last_line = made("last.book", b"\n" * 1_048_568 + b"publish\n")
    bad_line = made("bad.book", b"\n" * 1_048_568 + b"publich\n")
    many_rounds = made("rounds.book", b"round\n" * 65_536)
    interfaces = ["[[interface]]\nnumber = %d\nrole = 'peer'\nmode = 'off'\n" % number for number in range(64)]
    session = "[[session]]\ninterface = 63\npeer_as = 1\n"
    most = made("most.toml", "".join(interfaces + [session] * 128).encode())
    more_interfaces = made("interfaces.toml", "".join(interfaces + ["[[interface]]\n"]).encode())
    more_sessions = made("sessions.toml", "".join(interfaces + ["[[session]]\n"] * 129).encode())
    # 260 events of 65,535 octets each, which come while no transport is up.
    long_trace = made("long.trace", (b"\2\xff\xff" + bytes(65_535)) * 260)
    done = "done publications {} packets 0\n"
    check_cases([
        ("a stream of 16,777,217 octets", ["check", long_stream, "198.51.100.9"], 7, "", "urpf: stream too long\n"),
        ("a stream of 16,777,216 octets is read", ["check", full_stream, "198.51.100.9"], 13, "",
         "urpf: message 1 fault 1 1\n"),
        ("a configuration of 1,048,577 octets", offline(BOOK, TRACE, config=long_config), 7, "",
         "urpf: config too long\n"),
        ("a configuration of 1,048,576 octets is read", offline(EMPTY_BOOK, TRACE, config=full_config), 0,
         HEAD + done.format(0), ""),
        ("64 interfaces and 128 sessions", offline(EMPTY_BOOK, *[TRACE] * 128, config=most), 0,
         "run interfaces 64 sessions 128 pairs 0 skipped 0\npublish 0 edits 0 cells 0 items" + " 0" * 128 + "\n"
         + done.format(0), ""),
        ("65 interfaces", offline(BOOK, TRACE, config=more_interfaces), 3, "", "urpf: config TooManyInterfaces at 0\n"),
        ("129 sessions", offline(BOOK, TRACE, config=more_sessions), 3, "", "urpf: config TooManySessions at 0\n"),
        ("a runbook of 1,048,577 octets", offline(long_book, TRACE), 7, "", "urpf: book too long\n"),
        ("a runbook of 1,048,576 empty lines is read", offline(empty_lines, TRACE), 0, HEAD + done.format(0), ""),
        ("the last line of a full runbook is run", offline(last_line, TRACE), 0,
         HEAD + PUBLISHED + done.format(1), ""),
        ("the last line of a full runbook is refused", offline(bad_line, TRACE), 4, "",
         "urpf: book line 1048569 Syntax\n"),
        ("the 65,536th round is refused", offline(many_rounds, TRACE), 4, "", "urpf: book line 65536 Rounds\n"),
        ("a trace may be longer than a stream", offline(BOOK, long_trace), 0,
         HEAD + "end 0 items 0 rest 0\n" + PUBLISHED + NONE_PASSES + done.format(1), ""),
    ])


def check_table_limits(work):
    """Tables of pairs at their limits and past them. The table is read behind the runbook and before the number of
    sessions is looked at."""

    def made(name, *pieces):
        with open(work / name, "wb") as file:
            file.writelines(pieces)
        return str(work / name)

    def run_line(pairs, skipped):
        return f"run interfaces 1 sessions 1 pairs {pairs} skipped {skipped}\npublish 0 edits 0 cells 0 items 0\n"

    record = b"1,10.0.0.0/8\n"
    object_ = b"route:10.0.0.0/8\norigin:1\n\n"
    done = "done publications 0 packets 0\n"
    many = "urpf: too many pairs\n"
    for kind, octets in [("vrp", record), ("irr", object_)]:
        full = f"{kind}:" + made(f"full.{kind}", octets * 4_000_000)
        over = f"{kind}:" + made(f"over.{kind}", octets * 4_000_001)
        check_cases([
            (f"4,000,000 equal pairs of {kind}", offline(EMPTY_BOOK, TRACE, pairs=full), 0, run_line(1, 0) + done, ""),
            (f"4,000,001 pairs of {kind}, all the same", offline(EMPTY_BOOK, TRACE, pairs=over), 6, "", many),
        ])
    too_many = f"vrp:{work}/over.vrp"
    longest = "vrp:" + made("longest.csv", record, b"\n" * (134_217_728 - len(record)))
    too_long = "vrp:" + made("long.csv", record, b"\n" * (134_217_729 - len(record)))
    check_cases([
        ("too many pairs before a trace too many", offline(EMPTY_BOOK, TRACE, TRACE, pairs=too_many), 6, "", many),
        ("a refused runbook before too many pairs", offline(REFUSED_BOOK, TRACE, pairs=too_many), 4, "",
         "urpf: book line 3 Syntax\n"),
        ("a table of 134,217,728 octets is read", offline(EMPTY_BOOK, TRACE, pairs=longest), 0, run_line(1, 0) + done,
         ""),
        ("a table of 134,217,729 octets", offline(EMPTY_BOOK, TRACE, pairs=too_long), 7, "", "urpf: pairs too long\n"),
    ])


def check_cuts(work):
    """A session that comes in two events of octets, cut at each place, writes the same text."""
    messages = read_messages()
    octets = messages["open"] + messages["keepalive"] + messages["announce"]
    text = HEAD + ("end 0 items 4 rest 0\npublish 1 edits 0 cells 1 items 4\n"
                   "check 0 198.51.100.9 pass 1\ncheck 0 198.51.101.0 drop 1\ndone publications 1 packets 0\n")
    trace = work / "cut.trace"
    for place in range(1, len(octets)):
        events = b"".join(b"\2" + len(piece).to_bytes(2, "big") + piece for piece in (octets[:place], octets[place:]))
        trace.write_bytes(b"\1" + events)
        judge(f"a cut behind octet {place}", (0, text, ""), run(offline(BOOK, str(trace))))


def check_open_files(work):
    """128 traces where 16 files may be open at once: each is closed at its end, and none before."""
    sessions = 128
    few_files = "ulimit -n 16"
    config, to_the_end, one_item = (work / name for name in ["most.toml", "all.book", "one.book"])
    config.write_text(Path(ONE_CUSTOMER).read_text() + "[[session]]\ninterface = 0\npeer_as = 64501\n" * (sessions - 1))
    to_the_end.write_text("pull * all\n")
    one_item.write_text("pull * 1\n")
    text = (f"run interfaces 1 sessions {sessions} pairs 0 skipped 0\npublish 0 edits 0 cells 0 items" + " 0" * sessions
            + "\n" + "".join(f"end {session} items 4 rest 0\n" for session in range(sessions))
            + "done publications 0 packets 0\n")
    traces = [TRACE] * sessions
    judge("each trace is closed at its end", (0, text, ""),
          run(offline(str(to_the_end), *traces, config=str(config)), before=few_files))
    status, _, errors = run(offline(str(one_item), *traces, config=str(config)), before=few_files)
    judge("too many traces are open before their ends", (8, True),
          (status, errors.startswith("urpf: read fault on session ")))


def check_missing_files(work):
    """Files that are not there. The configuration is read first, then the runbook, and a trace when the first pull
    asks for it."""
    none = str(work / "no-such-file")
    folder = str(work)
    no_config = "urpf: read fault on config\n"
    no_book = "urpf: read fault on book\n"
    no_pairs = "urpf: read fault on pairs\n"
    no_trace = "urpf: read fault on session 0\n"
    refused = "urpf: book line 3 Syntax\n"
    check_cases([
        ("a missing stream", ["check", none, "198.51.100.9"], 8, "", "urpf: read fault on stream\n"),
        ("a missing trace", offline(BOOK, none), 8, HEAD, no_trace),
        ("a folder as trace", offline(BOOK, folder), 8, HEAD, no_trace),
        ("a missing trace that no line pulls", offline(EMPTY_BOOK, none), 0,
         HEAD + "done publications 0 packets 0\n", ""),
        ("a missing runbook", offline(none, TRACE), 8, "", no_book),
        ("a missing runbook before a missing trace", offline(none, none), 8, "", no_book),
        ("a missing runbook before a trace too many", offline(none, TRACE, TRACE), 8, "", no_book),
        ("a refused runbook before a missing trace", offline(REFUSED_BOOK, none), 4, "", refused),
        ("a refused runbook before a trace too many", offline(REFUSED_BOOK, TRACE, TRACE), 4, "", refused),
        ("a folder as runbook", offline(folder, TRACE), 8, "", no_book),
        ("a missing table", offline(BOOK, TRACE, pairs=f"vrp:{none}"), 8, "", no_pairs),
        ("a missing text of a registry", offline(BOOK, TRACE, pairs=f"irr:{none}"), 8, "", no_pairs),
        ("a folder as table", offline(BOOK, TRACE, pairs=f"vrp:{folder}"), 8, "", no_pairs),
        ("a missing table before a trace too many", offline(BOOK, TRACE, TRACE, pairs=f"vrp:{none}"), 8, "", no_pairs),
        ("a refused runbook before a missing table", offline(REFUSED_BOOK, TRACE, pairs=f"vrp:{none}"), 4, "", refused),
        ("a missing configuration", offline(BOOK, TRACE, config=none), 8, "", no_config),
        ("a missing configuration before a missing runbook", offline(none, none, config=none), 8, "", no_config),
        ("a folder as configuration", offline(BOOK, TRACE, config=folder), 8, "", no_config),
        ("a runbook as configuration before a missing runbook", offline(none, none, config=BOOK), 3, "",
         "urpf: config NotToml at 0\n"),
    ])


def check_unwritten():
    """Standard output that takes nothing. A runbook that is refused is told all the same."""
    for output in [">&-", ">/dev/full"]:
        check_cases([
            (f"check {output}", ["check", SESSION, "198.51.100.9"], 9, "", "urpf: write fault\n"),
            (f"offline {output}", offline(BOOK, TRACE), 9, "", "urpf: write fault\n"),
            (f"a refused runbook {output}", offline(REFUSED_BOOK, TRACE), 4, "", "urpf: book line 3 Syntax\n"),
        ], output)


def check_words(work):
    """Words that fit no command."""
    none = str(work / "no-such-file")
    check_cases([
        (name, words, 2, "", USAGE)
        for name, words in [
            ("no words", []),
            ("a word that is no UTF-8", ["check", SESSION, b"198.51.100.9\xff"]),
            ("check of an empty name", ["check", "", "198.51.100.9"]),
            ("check of the name ':'", ["check", ":", "198.51.100.9"]),
            ("offline without files", ["offline"]),
            ("a command in another case", ["Offline", ONE_CUSTOMER, BOOK, "none", TRACE]),
            ("words too few before missing files", ["offline", none, none]),
            ("an empty name of a configuration", offline(BOOK, TRACE, config="")),
            ("an empty name of a runbook", offline("", TRACE)),
            ("an empty name of a trace", offline(BOOK, TRACE, "")),
            ("an empty word for pairs", offline(BOOK, TRACE, pairs="")),
            ("an empty name of a table", offline(BOOK, TRACE, pairs="vrp:")),
            ("an empty name of a registry's text", offline(BOOK, TRACE, pairs="irr:")),
            ("a table of another kind", offline(BOOK, TRACE, pairs="csv:examples/one-roa.csv")),
            ("none with a name", offline(BOOK, TRACE, pairs="none:examples/one-roa.csv")),
            ("a kind in upper case", offline(BOOK, TRACE, pairs="VRP:examples/one-roa.csv")),
            ("a table without its kind", offline(BOOK, TRACE, pairs="examples/one-roa.csv")),
        ]
    ])
