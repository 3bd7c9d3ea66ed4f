"""The program `replay`, from docs/FORMATS.md ('An outage log as text'): lines `time node down|up`, then the replay of document 02, (l)."""
from document01 import Refused, check_placement
from replay import replay
from replies import line, refused

MOST_BYTES, MOST_EVENTS, LAST_SECOND = 131_072, 2_048, 4_294_967_295
BLANKS, STATES = b" \t\r", {b"down": True, b"up": False}


def number(word, index):
    """Decimal digits, at most 32 bits."""
    if not word or any(byte not in b"0123456789" for byte in word) or int(word) > LAST_SECOND:
        raise Refused(23, index)
    return int(word)


def words(content):
    """What stands between blanks."""
    found = [b""]
    for byte in content:
        if byte in BLANKS:
            found.append(b"")
        else:
            found[-1] += bytes([byte])
    return [word for word in found if word]


def read_log(text):
    """The events, each a time, a node and whether it goes down."""
    if len(text) >= MOST_BYTES:
        raise Refused(24, MOST_BYTES)
    log = []
    for index, content in enumerate(text.split(b"\n"), 1):
        parts = words(content.split(b"#")[0])
        if not parts:
            continue
        if len(parts) != 3 or parts[2] not in STATES:
            raise Refused(23, index)
        event = number(parts[0], index), number(parts[1], index), STATES[parts[2]]
        if len(log) == MOST_EVENTS:
            raise Refused(24, MOST_EVENTS)
        log.append(event)
    return log


def replay_reply(files, data):
    """What `replay` writes for the files that are named and the placement on standard input."""
    if len(files) != 1:
        return refused(22, 1)
    try:
        check_placement(data)
        return line(*replay(data, read_log(files[0])))
    except Refused as e:
        return refused(e.number, e.place)
