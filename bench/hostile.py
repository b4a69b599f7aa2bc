"""Hostile pieces, and what a connection makes of them: `hear` of the crate benchmarks, written from the description of the protocol."""
import json

WORD = 2**32
LONGEST_BODY = 4_096
LONGEST_LINE, LONGEST_INFO = 4_096, 1_048_576
SIGNS = b" \r\n0123456789"
FRAMES = [
    b'INFO {"max_payload":64,"headers":true}\r\n',
    b"MSG a.b 1 5\r\nhello\r\n",
    b"MSG a.b 1 _INBOX.c1.1 12\r\nhello\r\nworld\r\n",
    b"HMSG a.b 1 22 27\r\nNATS/1.0\r\nName: value\r\n\r\nhello\r\n",
    b"HMSG a.b 1 r.s 28 28\r\nNATS/1.0 503 No Responders\r\n\r\n\r\n",
    b"PING\r\n",
    b"PONG\r\n",
    b"+OK\r\n",
    b"-ERR 'Stale Connection'\r\n",
    b"MSG a.b 1 18446744073709551615\r\n",
    b"MSG  a.b   1 0\r\n\r\n",
    b"HMSG a.b 1 99999999999999999999 5\r\n",
]


class Damage(Exception):
    """The bytes do not begin with a frame."""


class More(Exception):
    """Less than a whole frame is left."""


class Pcg:
    """PCG32, the generator of the program."""

    def __init__(self, seed, stream):
        self.step_by = stream << 1 | 1
        self.state = (seed + self.step_by) % 2**64
        self.step()

    def step(self):
        self.state = (self.state * 6364136223846793005 + self.step_by) % 2**64

    def word(self):
        state = self.state
        self.step()
        mixed, turn = (((state >> 18) ^ state) >> 27) % WORD, state >> 59
        return (mixed >> turn | mixed << (-turn & 31)) % WORD

    def below(self, bound):
        return self.word() % bound


def change(rng, piece):
    value = rng.word() % 256 if rng.below(2) == 0 else SIGNS[rng.below(13)]
    piece[rng.below(len(piece))] = value


def drawn(rng):
    """The next piece."""

    def frame():
        return FRAMES[rng.below(len(FRAMES))]

    piece = bytearray(frame())
    kind = rng.below(8)
    if kind == 0:
        change(rng, piece)
    if kind in (1, 2):
        del piece[rng.below(len(piece)) :]
    if kind == 3:
        change(rng, piece)
    if kind in (2, 3):
        piece += frame()
    if kind == 3:
        change(rng, piece)
    return bytes(piece)


def number(word):
    if not (word.isascii() and word.isdigit()) or int(word) >= 2**64:
        raise Damage
    return int(word)


def body_at(rest, length):
    if length > LONGEST_BODY:
        raise Damage
    if len(rest) < length + 2:
        raise More
    if rest[length : length + 2] != b"\r\n":
        raise Damage
    return rest[:length]


def check_headers(block):
    """A version with a status perhaps, headers, and an empty line."""
    first, *lines = block.split(b"\r\n")
    for line in (first, *lines):
        if b"\n" in line:
            raise Damage
    if not first.startswith(b"NATS/1.0"):
        raise Damage
    status = first[8:].lstrip(b"\t\n\x0c\r ")
    if status and not (len(status) >= 3 and status[:3].isdigit() and status[3:4] in (b"", b" ")):
        raise Damage
    text(status)
    if lines[-2:] != [b"", b""] or b"" in lines[:-2]:
        raise Damage
    for line in lines[:-2]:
        name, colon, value = line.partition(b":")
        if not colon:
            raise Damage
        text(name), text(value)


def text(line):
    try:
        return line.decode("utf-8")
    except UnicodeDecodeError as error:
        raise Damage from error


def first_frame(held):
    """The first frame: whether it is a message of inbox 1, a refusal or another one, and how many bytes it has."""
    limit = LONGEST_INFO if held.startswith(b"INFO ") else LONGEST_LINE
    end = held[:limit].find(b"\n")
    if end < 0:
        raise More if len(held) < limit else Damage
    if not held[:end].endswith(b"\r"):
        raise Damage
    line = text(held[: end - 1])
    verb, _, rest = line.partition(" ")
    if verb in ("MSG", "HMSG"):
        words = [word for word in rest.split(" ") if word]
        lengths = 1 if verb == "MSG" else 2
        if len(words) not in (2 + lengths, 3 + lengths):
            raise Damage
        numbers = [number(word) for word in (words[1], *words[-lengths:])]
        if numbers[1] > numbers[-1]:
            raise Damage
        body = body_at(held[end + 1 :], numbers[-1])
        if verb == "HMSG":
            check_headers(body[: numbers[1]])
        return "message" if numbers[0] == 1 else None, end + 1 + len(body) + 2
    if verb == "INFO":
        check_info(rest)
    elif verb not in ("PING", "PONG", "+OK", "-ERR"):
        raise Damage
    return "refusal" if verb == "-ERR" else None, end + 1


def check_info(rest):
    try:
        info = json.loads(rest)
    except ValueError as error:
        raise Damage from error
    most = info.get("max_payload") if isinstance(info, dict) else None
    if type(most) is not int or not 0 <= most < 2**64:
        raise Damage


def heard(seed, pieces):
    """What `hear SEED PIECES` has to tell."""
    rng, held = Pcg(seed, 1), b""
    counts = {"message": 0, "refusal": 0, None: 0}
    damages = 0
    for _ in range(pieces):
        held += drawn(rng)
        try:
            while held:
                kind, length = first_frame(held)
                counts[kind] += 1
                held = held[length:]
        except More:
            pass
        except Damage:
            damages, held = damages + 1, b""
    return f"{counts['message']} messages, {counts['refusal']} refusals, {damages} damages"
