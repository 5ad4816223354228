"""A second model of `a429 cut`, for any profile: where a recording may be cut, and the parts of one. scripts/test-decide compares with
it. It is written from docs/RECORDINGS.md, and not from the program. All entries are in memory here, so it looks ahead where the program
has to wait.
"""

from tracing import Sink, message_of


def places(profile, entries):
    """After how many entries a recording of these, each with a bus and a word, may be cut; with the entry of the start word that says so."""
    messages = [message_of(profile, bus, word) for bus, word in entries]
    starts = [(n, *message[2:]) for n, message in enumerate(messages) if message[0] == "sot"]
    requests = [n for n, message in enumerate(messages) if message[0] == "rts"]
    found, crossings, refused = {}, [], []
    sink = Sink(profile)
    for n, message in enumerate(messages):
        if sink is None:
            start = start_of_file(profile, n, starts, requests)
            if start is None:
                continue
            found[n] = start
            sink = Sink(profile)
        if isinstance(message, str) and message.startswith("free"):
            continue
        if isinstance(message, str) or not sink.allows(message):
            refused.append(n)
            sink = None
            continue
        crossed = len(sink.files)
        sink.take(message)
        if len(sink.files) > crossed:
            crossings.append((n + 1, *sink.accepted[:2]))
    for n, *numbers in crossings:
        start = next((start for start in starts if start[0] >= n), None)
        if start and start[1:] != tuple(numbers) and not any(n <= word < start[0] for word in refused):
            found[n] = start[0]
    return found


def start_of_file(profile, n, starts, requests):
    """The start word of the request that entry n is, recorded before another request, if it begins a file."""
    start = next((start for start in starts if start[0] > n), None)
    if n not in requests or start is None or start[2] != profile.first_ldu:
        return None
    return None if any(n < other < start[0] for other in requests) else start[0]


def sizes_of(profile, entries, most):
    """How many entries each part has, and whether there is no place that is near enough for one more."""
    sizes, begin, found = [], 0, places(profile, entries)
    while len(entries) - begin > most:
        near = [place for place, start in found.items() if begin < place <= begin + most and start <= place + most]
        if not near:
            return sizes, True
        sizes.append(max(near) - begin)
        begin = max(near)
    return [*sizes, len(entries) - begin], False


def list_of(sizes):
    """The lines of parts of these sizes."""
    froms = [sum(sizes[:n]) for n in range(len(sizes))]
    return [f"part {n} entries {size} from {begin}" for n, (size, begin) in enumerate(zip(sizes, froms), 1)]
