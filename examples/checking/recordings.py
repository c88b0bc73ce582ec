"""The origins of the routes in recordings of several peers, by what other tools read in them.

All peers of a recording are sessions of one run, with interfaces of no customer in mode loose. Beside them stands a
customer in mode efp-a for each origin, who announces one prefix of it by a trace. By Algorithm A (RFC 8704, section 3.1.1)
his list has the prefixes of this origin and no other, whoever announced them, so checks of an address in each prefix on
each of these interfaces show which origins it has. At first one peer alone is pulled, then the others.
"""
import ipaddress
import json
from pathlib import Path

from checking.pages import framed
from checking.running import judge, run

RECORDINGS = Path("cases/recordings/speakers")
# Who announces the prefixes of the customers.
CUSTOMER = 64500
# The transport, an OPEN and a KEEPALIVE come before the UPDATEs.
ITEMS_BEFORE = 3


def session_of(prefix, origin):
    """A trace in which this customer announces the prefix."""
    four_octets = bytes([65, 4]) + CUSTOMER.to_bytes(4, "big")
    open_body = bytes([4]) + CUSTOMER.to_bytes(2, "big") + bytes(2) + bytes([192, 0, 2, 1]) + bytes([8, 2, 6]) + four_octets
    path = bytes([2, 2]) + CUSTOMER.to_bytes(4, "big") + origin.to_bytes(4, "big")
    attributes = (bytes.fromhex("40010100") + bytes([0x40, 2, len(path)]) + path
                  + bytes.fromhex("400304") + bytes([192, 0, 2, 1]))
    update = bytes(2) + len(attributes).to_bytes(2, "big") + attributes + bytes([30]) + prefix.network_address.packed
    messages = framed(1, open_body) + framed(4, b"") + framed(2, update)
    return b"\1" + b"\2" + len(messages).to_bytes(2, "big") + messages


def customers_of(origins, work):
    """For each origin an interface, the prefix that its customer announces, and a file with his session."""
    blocks = ipaddress.ip_network("203.0.113.0/24").subnets(new_prefix=30)
    made = []
    for place, (origin, prefix) in enumerate(zip(origins, blocks)):
        name = work / f"{origin}.trace"
        name.write_bytes(session_of(prefix, origin))
        made.append((place, origin, prefix, str(name)))
    return made


def configuration_of(peers, first):
    """A configuration of these peers, behind `first` customers."""
    def interface(number, role, mode, peer_as):
        return (f"[[interface]]\nnumber = {number}\nrole = '{role}'\nmode = '{mode}'\n"
                f"[[session]]\ninterface = {number}\npeer_as = {peer_as}\n")

    customers = [interface(number, "customer", "efp-a", CUSTOMER) for number in range(first)]
    others = [interface(first + k, "peer", "loose", peer["peer_as"]) for k, peer in enumerate(peers)]
    return "".join(customers + others)


def verdicts(addresses, routes, customers, loose, publication):
    """The lines of the runbook and of the text that check the addresses, with these routes of a prefix and an origin."""
    asked, told = [], []
    for address in addresses:
        covering = [origin for prefix, origin in routes if address.version == prefix.version and address in prefix]
        for interface, passes in [(loose, bool(covering))] + [(place, origin in covering)
                                                              for place, origin, _, _ in customers]:
            asked.append(f"check {interface} {address}")
            text = address.exploded if address.version == 6 else str(address)
            told.append(f"check {interface} {text} {'pass' if passes else 'drop'} {publication}")
    return asked, told


def check_recording(name, first, work):
    """Runs a recording, the peer at this place before the others, and compares the whole text of the run."""
    peers = [{"address": address, **peer}
             for address, peer in json.loads((RECORDINGS / f"{name}.origins.json").read_text()).items()]
    peers = peers[first:] + peers[:first]
    origins = sorted({origin for peer in peers for origin in peer["origins"].values() if origin})
    customers = customers_of(origins, work)
    config, book = work / "peers.toml", work / "peers.book"
    config.write_text(configuration_of(peers, len(customers)))
    routes = [[(ipaddress.ip_network(prefix), origin) for prefix, origin in peer["origins"].items()] for peer in peers]
    theirs = [(prefix, origin) for _, origin, prefix, _ in customers]
    addresses = sorted({prefix.network_address for of_peer in routes for prefix, _ in of_peer},
                       key=lambda address: (address.version, address))
    loose, sessions = len(customers), len(customers) + len(peers)
    items = [0] * sessions
    asked, told = [], [f"run interfaces {sessions} sessions {sessions} pairs 0 skipped 0",
                       f"publish 0 edits 0 cells 0 items{' 0' * sessions}"]

    def pull(session, count):
        asked.append(f"pull {session} all")
        items[session] = count
        told.append(f"end {session} items {count} rest 0")

    def publish(number, cells, known):
        asked.append("publish")
        told.append(f"publish {number} edits 0 cells {cells} items {' '.join(map(str, items))}")
        more_asked, more_told = verdicts(addresses, known, customers, loose, number)
        asked.extend(more_asked)
        told.extend(more_told)

    for place, *_ in customers:
        pull(place, ITEMS_BEFORE + 1)
    pull(loose, ITEMS_BEFORE + peers[0]["updates"])
    publish(1, len({prefix for prefix, _ in theirs + routes[0]}), theirs + routes[0])
    for k, peer in enumerate(peers[1:], 1):
        pull(loose + k, ITEMS_BEFORE + peer["updates"])
    # The cell of each prefix that another peer has too changes.
    publish(2, len({prefix for of_peer in routes[1:] for prefix, _ in of_peer}),
            theirs + [route for of_peer in routes for route in of_peer])
    told.append("done publications 2 packets 0")
    book.write_text("\n".join(asked) + "\n")
    words = [name for *_, name in customers]
    words += [f"mrt:{RECORDINGS / name}.mrt@{peer['address']}" for peer in peers]
    judge(f"{RECORDINGS / name}.mrt, {peers[0]['address']} first", (0, "\n".join(told) + "\n", ""),
          run(["offline", str(config), str(book), "none", *words]))


def check_recordings(work):
    """Runs each recording with each of its peers first."""
    for name in ["frr-updates", "gobgp"]:
        for first in range(3):
            check_recording(name, first, work)
