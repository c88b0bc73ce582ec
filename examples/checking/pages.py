"""The commands, sessions and rows of a page, each run and compared with what the page shows."""
import re
from pathlib import Path

from checking.running import HEAD, ONE_CUSTOMER, judge, run


def read_commands(page):
    """The commands of a page: each as its words, and the status and both outputs that the page shows."""
    inside = asked = False
    commands = []
    for line in page.read_text().splitlines():
        if line.startswith("```"):
            inside = line == "```console"
        elif inside and line.startswith("$ ./urpf "):
            commands.append([line.split()[2:], 0, "", ""])
        elif inside and line == "$ echo $?":
            asked = True
        elif inside and asked:
            commands[-1][1] = int(line)
            asked = False
        elif inside and line.startswith("urpf: "):
            commands[-1][3] += line + "\n"
        elif inside and not line.startswith("$ "):
            commands[-1][2] += line + "\n"
    return commands


def check_page(page):
    """Runs the commands of a page, of which there are some."""
    commands = read_commands(page)
    judge(f"{page} has a case", True, commands + read_sessions(page) + read_rows(page) != [])
    for words, *wanted in commands:
        judge(f"{page}: ./urpf {' '.join(words)}", tuple(wanted), run(words))


# Sessions that are written as words.


def read_messages():
    """The octets of each message of crates/message_octets, by the name of its constant."""
    messages = {}
    for path in Path("crates/message_octets/src").glob("*.rt"):
        text = re.sub(r"//.*", "", path.read_text())
        for name, octets in re.findall(r"pub const (\w+): \[u8; \d+\] = \[(.*?)\];", text, re.DOTALL):
            if ";" not in octets:
                messages[name.lower().replace("_", "-")] = bytes(int(octet, 16) for octet in re.findall(r"\w+", octets))
    return messages


def octets_of(piece, messages):
    """The octets of a message, or of the part of it that the piece names."""
    name, first, last = re.fullmatch(r"([\w-]+)(?:\[(\d*)\.\.(\d*)\])?", piece).groups()
    return messages[name][int(first or 0) : int(last) if last else None]


def trace_of(event, messages):
    """An event in the trace format."""
    if event in ("up", "down"):
        return b"\1" if event == "up" else b"\3"
    if event.startswith("broken "):
        return bytes.fromhex(event.removeprefix("broken "))
    if event.endswith(" s"):
        return b"\4" + int(event.removesuffix(" s")).to_bytes(4, "big")
    octets = b"".join(octets_of(piece, messages) for piece in event.split(" + "))
    return b"\2" + len(octets).to_bytes(2, "big") + octets


def read_sessions(page):
    """The sessions of a page: for each its runbook, its configuration, its name, its events, and its text."""
    blocks = re.findall(r"^```session (\S+)(?: (\S+))?\n(.*)\n(.*)\n((?:.*\n)*?)```$", page.read_text(), re.MULTILINE)
    return [(book, config or ONE_CUSTOMER, name, [] if events == "none" else events.split(", "), text)
            for book, config, name, events, text in blocks]


def check_sessions(page, work):
    """Runs the sessions of a page, each over a trace of its events."""
    messages = read_messages()
    trace = work / "session.trace"
    for book, config, name, events, text in read_sessions(page):
        trace.write_bytes(b"".join(trace_of(event, messages) for event in events))
        *lines, last = text.splitlines(keepends=True)
        fault = last if last.startswith("urpf: ") else ""
        wanted = (8 if fault else 0, HEAD + "".join(lines) + ("" if fault else last), fault)
        judge(f"{page}: {name}", wanted, run(["offline", config, book, "none", str(trace)]))


# Messages that are written as octets, and configurations: each row has the outcome, the text, and what it is.


def framed(kind, body):
    """A whole message of this type."""
    return b"\xff" * 16 + (19 + len(body)).to_bytes(2, "big") + bytes([kind]) + body


def header_of(words):
    """A header by the first octet of its marker, its length and its type."""
    first, length, kind = words.split()
    return bytes.fromhex(first) + b"\xff" * 15 + int(length).to_bytes(2, "big") + bytes([int(kind)])


def of_header(outcome, words, work):
    """What `check` tells of a header alone."""
    stream = work / "header.session"
    stream.write_bytes(header_of(words))
    told = {"messages": 0, "prefixes": 0, "rest": 0}
    fault = f"urpf: message 1 {outcome}\n" if outcome.startswith("fault") else ""
    if not fault:
        name, count = outcome.split()
        told[name] = int(count)
    line = "check 192.0.2.1 drop " + " ".join(f"{name} {count}" for name, count in told.items()) + "\n"
    return ["check", str(stream), "192.0.2.1"], 13 if fault else 0, "" if fault else line, fault


def of_update(subcode, octets, work):
    """What `check` tells of an UPDATE that is refused."""
    stream = work / "update.session"
    stream.write_bytes(framed(2, bytes.fromhex(octets)))
    return ["check", str(stream), "192.0.2.1"], 13, "", f"urpf: message 1 fault 3 {subcode}\n"


def of_open(subcode, octets, work):
    """What `offline` writes of a session whose OPEN is refused."""
    trace = work / "open.trace"
    message = framed(1, bytes.fromhex(octets))
    trace.write_bytes(b"\1\2" + len(message).to_bytes(2, "big") + message)
    ends = f"reset 0 item 2 fault 2 {subcode}\nend 0 items 2 rest 0\n"
    published = "publish 1 edits 0 cells 0 items 2\ncheck 0 198.51.100.9 drop 1\ndone publications 1 packets 0\n"
    words = ["offline", ONE_CUSTOMER, "cases/sessions/all-at-once.book", "none", str(trace)]
    return words, 0, HEAD + ends + published, ""


def of_configuration(fault, lines, work):
    """What `offline` tells of a configuration that is refused, before it looks at the other files."""
    config = work / "refused.toml"
    config.write_text(lines.replace(" / ", "\n") + "\n")
    none = str(work / "no-such-file")
    return ["offline", str(config), none, "none", none], 3, "", f"urpf: config {fault}\n"


OUTCOMES = {"headers": of_header, "updates": of_update, "opens": of_open, "configurations": of_configuration}


def read_rows(page):
    """The rows of a page: the kind of message, the outcome, the octets, and what they are."""
    blocks = re.findall(r"^```(headers|updates|opens|configurations)\n((?:.*\n)*?)```$", page.read_text(), re.MULTILINE)
    return [(kind, *row.split(" | ")) for kind, rows in blocks for row in rows.splitlines()]


def check_rows(page, work):
    """Runs the rows of a page."""
    for kind, outcome, octets, name in read_rows(page):
        words, *wanted = OUTCOMES[kind](outcome, octets, work)
        judge(f"{page}: {name}", tuple(wanted), run(words))


def file_of(word):
    """The file that a word names, if it names one."""
    if word.startswith("mrt:"):
        return word.removeprefix("mrt:").rpartition("@")[0]
    return word.removeprefix("vrp:").removeprefix("irr:")


def check_uses(page):
    """The page uses every file beside it, but for this script."""
    words = [file_of(word) for command in read_commands(page) for word in command[0]]
    words += [file for session in read_sessions(page) for file in session[:2]]
    for path in sorted(page.parent.iterdir()):
        if path.is_file() and path.name not in (page.name, "check"):
            judge(f"{page} uses {path}", True, str(path) in words)
