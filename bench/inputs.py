#!/usr/bin/env python3
"""Writes a transcript to standard output: `inputs.py arrivals|recreations|held|ticks|entries [COUNT]` or `inputs.py mix SEED`.

arrivals     pull arrivals without a gap, up to the most bytes that a transcript may have
recreations  a gap, both answers and one arrival, over and over, up to the most bytes
held         one push create under which COUNT arrivals are held (100000), then its answer
ticks        COUNT events that bring nothing (7000000)
entries      COUNT arrivals (200000) with subjects out of 1000, from a configured start, every tenth sequence left out
mix          a short transcript of all kinds of events, drawn by the seed; some do not read, some are refused
"""
import json
import random
import sys

LIMIT = 67_108_864
SECOND = 1_000_000_000
CREATED = "2026-01-01T00:00:00Z"


def info(name="c1", config=None):
    """A consumer's info, as an API answer has it."""
    return {
        "stream_name": "events",
        "name": name,
        "created": CREATED,
        "config": config or {"deliver_policy": "all"},
        "delivered": {"consumer_seq": 0, "stream_seq": 0},
        "ack_floor": {"consumer_seq": 0, "stream_seq": 0},
        "num_ack_pending": 0,
        "num_redelivered": 0,
        "num_waiting": 0,
        "num_pending": 0,
    }


def setup(mode="pull", config=None, settings=None, start=0):
    config = config or {"deliver_policy": "all"}
    if mode == "push":
        config = dict(config, deliver_subject="d.in")
    return {"mode": mode, "start": start, "settings": settings or {}, "config": config, "info": info(config=config)}


def line(value):
    return json.dumps(value, separators=(",", ":"), ensure_ascii=False).encode() + b"\n"


def reply(sequence, number, name="c1"):
    return f"$JS.ACK.events.{name}.1.{sequence}.{number}.1790230470084404000.0"


def arrival(at, inbox, sequence, number, payload):
    return line({"at": at, "arrival": {"inbox": inbox, "reply": reply(sequence, number), "payload": payload}})


def up_to_limit(first, pieces):
    """The pieces that fit into one transcript after its first line."""
    size = len(first)
    yield first
    for piece in pieces:
        size += len(piece)
        if size > LIMIT:
            return
        yield piece


def arrivals():
    def pieces():
        n = 0
        while True:
            n += 1
            yield arrival(n * 1000, 0, n, n, f"message {n}")

    return up_to_limit(line(setup()), pieces())


def recreations():
    def pieces():
        episode = 0
        while True:
            at = episode * 4000
            name = f"c1_{episode + 1}"
            gap = arrival(at, episode, episode + 3, 3 if episode == 0 else 9, "late")
            deleted = line({"at": at + 1000, "answer": {"request": 2 * episode + 1, "payload": {"success": True}}})
            created = line({"at": at + 2000, "answer": {"request": 2 * episode + 2, "payload": info(name)}})
            yield gap + deleted + created + arrival(at + 3000, episode + 1, episode + 1, 1, f"message {episode}")
            episode += 1

    return up_to_limit(line(setup()), pieces())


def held(count):
    push = setup("push")
    yield line(push)
    yield arrival(1, 0, 2, 2, "gap")
    yield line({"at": 2, "answer": {"request": 1, "payload": {"success": True}}})
    for n in range(1, count + 1):
        yield arrival(3, 1, n, n, f"message {n}")
    answered = info("c1_1", dict(push["config"], deliver_subject="_INBOX.t.1"))
    yield line({"at": 4, "answer": {"request": 2, "payload": answered}})


def ticks(count):
    yield line(setup())
    block = b'{"at":1}\n' * 10_000
    for _ in range(count // 10_000):
        yield block
    yield b'{"at":1}\n' * (count % 10_000)


def entries(count):
    """A log of subjects whose values change, one of ten of them being deleted, with a hole after every ninth message."""
    yield line(setup(config={"deliver_policy": "by_start_sequence", "opt_start_seq": 1}))
    for n in range(1, count + 1):
        sequence = n + (n - 1) // 9
        payload = "" if n % 10 == 0 else f"value {n}"
        message = {"inbox": 0, "subject": f"keys.{n * 7919 % 1000}", "reply": reply(sequence, n), "payload": payload}
        yield line({"at": n, "arrival": message})


class Mix:
    """Draws a transcript by a seed.

    It keeps a rough picture of the consumer (its inbox, its numbers, how many requests went out), so that what it
    draws often fits; where the picture is wrong, it draws what does not fit, and that is wanted too.
    """

    def __init__(self, seed):
        self.rng = random.Random(seed)
        self.mode = self.rng.choice(["pull", "push"])
        self.at = 0
        self.inbox = 0
        self.made = 1
        self.number = 0
        self.sequence = self.rng.choice([0, 0, 0, 7])
        self.asked = 0
        self.stage = None  # what the open request is for, as far as the picture tells
        self.state = "connected"
        self.calm = self.chance(60)
        self.limited = False

    def chance(self, percent):
        return self.rng.randrange(100) < percent

    def transcript(self):
        lines = [self.setup()]
        for _ in range(self.rng.choice([3, 10, 30, 80])):
            lines.append(self.event())
        if self.chance(10):
            lines = self.spoiled(lines)
        text = b"\n".join(lines)
        return text if self.chance(20) else text + b"\n"

    # The setup.

    def config(self):
        """A configuration; any field may be there."""
        rng = self.rng
        config = {"deliver_policy": rng.choice(["all", "all", "all", "last", "new", "last_per_subject", "by_start_sequence", "by_start_time"])}
        if config["deliver_policy"] == "by_start_sequence":
            config["opt_start_seq"] = rng.choice([0, 1, 5, 2**64 - 1])
        if config["deliver_policy"] == "by_start_time":
            config["opt_start_time"] = self.instant()
        choices = {
            "durable_name": ["d", None],
            "name": ["n", None],
            "description": ["", "what \"it\" does\n", None],
            "deliver_group": ["g", None],
            "ack_policy": ["explicit", "none", "all", "flow_control"],
            "ack_wait": [0, SECOND],
            "max_deliver": [-1, 0, 1],
            "filter_subject": ["", "a.>", "a", "a.*.b"],
            "filter_subjects": [[], ["a"], ["a.>", "b"]],
            "replay_policy": ["instant", "original"],
            "rate_limit_bps": [0, 1000],
            "sample_freq": ["0", "30", "30%", "+7%", "007"],
            "max_waiting": [0, 512, -1],
            "max_ack_pending": [0, 1000],
            "headers_only": [True, False],
            "flow_control": [True, False],
            "idle_heartbeat": [0, 5 * SECOND],
            "max_batch": [0, 1, 2, 3, 7, 500, 501, -1],
            "max_bytes": [0, 1024],
            "max_expires": [0, 1, 2, 3, SECOND, 5 * SECOND, 60 * SECOND, 2**64 - 1],
            "inactive_threshold": [0, SECOND],
            "num_replicas": [0, 3],
            "mem_storage": [True, False],
            "metadata": [{}, {"b": "1", "a": "2"}],
            "backoff": [[], [1, 2]],
            "priority_policy": ["none", "overflow", "pinned_client", "prioritized"],
            "priority_groups": [[], ["g"]],
            "priority_timeout": [0, 1],
            "pause_until": [CREATED, None],
            "unknown": [1, "x", None, {"a": []}],
        }
        for key, values in choices.items():
            if self.chance(8):
                config[key] = rng.choice(values)
        return config

    def instant(self):
        return self.rng.choice([CREATED, CREATED, "2026-01-01T00:00:00.5Z", "2026-01-01 00:00:00+02:00", "20260101T000000Z", "0001-01-01T00:00:00Z", "2026-02-28T23:59:60,123456789-25:59:59"])

    def info(self, name="c1"):
        """An info as an answer may hold it, mostly good for the mode."""
        value = info(name, self.config())
        if self.mode == "push" and not self.chance(5):
            value["config"]["deliver_subject"] = self.rng.choice(["d.in", "d.in", "_INBOX.t.1", ""])
        value["num_waiting"] = self.rng.choice([0, 0, 1])
        if self.chance(10):
            value["stream_name"] = self.rng.choice(["events", "other"])
        choices = {
            "created": [self.instant()],
            "cluster": [None, {}, {"name": "a", "leader": None, "replicas": [{"x": 1}]}],
            "push_bound": [True, False],
            "paused": [True, False],
            "pause_remaining": [None, 0, 5],
            "priority_groups": [[], [{"group": "g", "pinned_client_id": None, "pinned_ts": "0001-01-01T00:00:00Z"}]],
            "delivered": [{"consumer_seq": 1, "stream_seq": 2, "last_active": self.instant()}],
            "type": ["io.nats.jetstream.api.v1.consumer_info_response"],
        }
        for key, values in choices.items():
            if self.chance(8):
                value[key] = self.rng.choice(values)
        return value

    def setup(self):
        rng = self.rng
        settings = {}
        choices = {
            "api_prefix": ["$JS.API", "$JS.hub.API", "p"],
            "inbox_prefix": ["_INBOX.t", "_INBOX", "i.j.k"],
            "context_timeout": [None, 0, 1, SECOND, 2**64 - 1],
            "request_timeout": [None, 0, 1, SECOND, 2**64 - 1],
            "retries": [0, 0, 1, 2, 5, 4_294_967_295],
        }
        for key, values in choices.items():
            if self.chance(8 if self.calm else 25):
                settings[key] = rng.choice(values)
        if self.chance(3):
            key = rng.choice(["api_prefix", "inbox_prefix"])
            settings[key] = rng.choice(["", ".a", "a.", "a b", "a..b"])
        config = self.config()
        first = self.info()
        if self.mode == "push" and not self.chance(3):
            config["deliver_subject"] = "d.in"
            first["config"]["deliver_subject"] = "d.in"
            if self.chance(3):
                del first["config"]["deliver_subject"]
        if self.chance(20):
            first["config"]["max_batch"] = rng.choice([1, 2, 3, 4])
        if self.chance(3):
            key = rng.choice(["stream_name", "name"])
            first[key] = rng.choice(["", "a.b", "a*", "a>", "a b", "a\u000bb", "\u00e4"])
        if self.chance(3):
            config["filter_subject"] = rng.choice([".a", "a.", "a\tb"])
        self.at = rng.choice([0, 0, 0, 5, 2**64 - 5 * SECOND])
        return self.dumped({"mode": self.mode, "start": self.at, "settings": settings, "config": config, "info": first})

    # Events.

    def dumped(self, value):
        """JSON text, with white space or with all characters escaped now and then."""
        escaped = self.chance(10)
        separators = (", ", " : ") if self.chance(3) else (",", ":")
        text = json.dumps(value, separators=separators, ensure_ascii=escaped).encode()
        return text + b" \r" if self.chance(2) else text

    def moment(self):
        near = [0, 1, 1, 1000, SECOND // 2]
        far = [SECOND, SECOND, 2 * SECOND, 5 * SECOND, 10 * SECOND, 30 * SECOND, 35 * SECOND, 600 * SECOND]
        self.at += self.rng.choice(near if self.calm and not self.chance(5) else near + far)
        if self.chance(1) and self.chance(30):
            self.at -= 1
        self.at = max(0, min(self.at, 2**64 - 1))
        return self.at

    def event(self):
        event = {"at": self.moment()}
        kinds = ["message"] * 12 + ["gap"] * 2 + ["status"] * 3 + ["answer"] * 8 + ["tick"] * 3 + ["link", "stray"]
        kinds += ["connection"] * (3 if self.mode == "pull" else 1) + ["watcher"] * self.chance(10)
        kind = self.rng.choice(kinds)
        if kind == "answer" and self.asked == 0:
            kind = "message"
        if self.stage and self.chance(40):
            kind = "answer"
        if self.limited and not self.stage and self.chance(50):
            kind = "status"
        event.update(getattr(self, kind)())
        if self.chance(5):
            event = dict(reversed(list(event.items())))
        return self.dumped(event)

    def tick(self):
        return {}

    def link(self):
        return {"link": "open" if self.chance(70) else "closed"}

    def connection(self):
        """A change; after one to connected, a pull reader asks for its info."""
        old = self.state
        self.state = self.rng.choice(["connected", "connected", "disconnected", "pending"] if old != "connected" else ["disconnected", "pending", "connected"])
        if self.mode == "pull" and self.state == "connected" != old and self.stage is None:
            self.asked += 1
            self.stage = "info"
        elif self.mode == "push" and self.state != old:
            self.picture_recreation()
        return {"connection": self.state}

    def watcher(self):
        return {"watcher": "ended"}

    def guess(self, value, least=0):
        """The value, or a number beside it now and then."""
        return value if self.chance(92) else max(least, value + self.rng.choice([-1, 1, 2]))

    def reply_text(self, sequence, number):
        rng = self.rng
        prefix = rng.choice(["events.c1.1"] * 8 + ["_.acc.events.c1.-3", "hub.acc.events.c1.1", ".a.events..1"])
        tail = ".random.more" if prefix.count(".") > 2 and self.chance(50) else ""
        return f"$JS.ACK.{prefix}.{sequence}.{number}.1790230470084404000.0{tail}"

    def bad_reply(self):
        return self.rng.choice([
            None,
            "",
            "reply",
            "$JS.FC.events.c1",
            "$JS.ACK.",
            "$JS.ACK.events.c1.1.1.1.0",
            "$JS.ACK.hub.acc.events.c1.1.1.1.0",
            "$JS.ACK.events.c1.x.1.1.0.0",
            "$JS.ACK.events.c1.1.18446744073709551616.1.0.0",
            "$JS.ACK.events.c1.1.1.1.253402207201000000000.0",
            "$JS.ACK.events.c1.1.1.1.0.-1",
        ])

    def payload(self):
        return self.rng.choice(["a", "", "text with \"quotes\" and \\", "\u0001\u001f\u007f\u2028 \u00e4 \U0001f600", {"b": 1, "a": [None, True, -5]}, [], None])

    def message(self, number=None):
        """A message that mostly follows the one before it."""
        rng = self.rng
        self.sequence += rng.choice([1, 1, 1, 2, 9])
        if self.chance(1):
            self.sequence = 2**64 - 1
        self.sequence = min(self.sequence, 2**64 - 1)
        number = self.guess(self.number + 1) if number is None else number
        fits = number == self.number + 1
        message = {"inbox": self.guess(self.inbox), "reply": self.reply_text(self.sequence, number), "payload": self.payload()}
        if fits and message["inbox"] == self.inbox:
            self.number = number
            self.limited = False
        else:
            self.picture_recreation()
        if self.chance(5):
            message["reply"] = self.bad_reply()
        if self.chance(10):
            message["subject"] = rng.choice(["a.x", "", None, "\u00e4"])
        if self.chance(10):
            message["status"] = rng.choice([200, None, 200, 100])
        if self.chance(5):
            message["headers"] = rng.choice([None, [], [["a", "b"]], [["Nats-Pending-Messages", "1"]]])
        if self.chance(3):
            message["description"] = rng.choice([None, "", "Consumer Deleted"])
        return {"arrival": message}

    def gap(self):
        return self.message(self.number + 1 + self.rng.choice([1, 2, 5]))

    def picture_recreation(self):
        if self.stage is None:
            self.asked += 1
            self.number = 0
            self.stage = "delete"

    def status(self):
        rng = self.rng
        status = 409 if self.limited and self.chance(80) else rng.choice([100, 100, 100, 408, 409, 409, 423, 503, 404, 0, 65535])
        message = {"inbox": self.guess(self.inbox), "status": status}
        if self.chance(60):
            texts = ["Consumer Deleted", "Consumer is push based", "Exceeded MaxRequest", "Request Timeout", "consumer deleted", "Leadership Change"]
            message["description"] = rng.choice(texts + ["Exceeded MaxRequestBatch of 100"] * (20 if self.limited else 5))
        if self.chance(50):
            message["reply"] = rng.choice(["$JS.FC.x", "r", None])
        if self.chance(60):
            names = ["Nats-Pending-Messages", "Nats-Pending-Bytes", "Nats-Last-Consumer", "nats-last-consumer", "x"]
            values = ["0", "1", "2", "250", "499", "+1", "", "x", str(self.number), str(self.number), "18446744073709551615", "18446744073709551616"]
            message["headers"] = [[rng.choice(names), rng.choice(values)] for _ in range(rng.randrange(4))]
        text = message.get("description", "")
        if status == 503 or (status in (408, 409, 423) and (text == "Consumer Deleted" or text.startswith("Exceeded"))):
            self.limited = text.startswith("Exceeded")
            self.picture_recreation()
        return {"arrival": message}

    def answer(self):
        rng = self.rng
        answer = {"request": self.guess(self.asked, 1)}
        if self.chance(8):
            answer["gone"] = True
        elif self.stage == "delete" or (self.stage is None and self.chance(20)):
            answer["payload"] = rng.choice([{"success": True}, '{"success":false}', None, "x"])
        else:
            answer["payload"] = self.answered_info()
        if "gone" not in answer and self.chance(6):
            answer["status"] = rng.choice([503, 503, 404, 200])
        if self.stage == "delete":
            self.asked += 1
            self.stage = "create"
            self.made += self.mode == "push"
        elif self.stage == "info" and "gone" not in answer:
            self.stage = None
        elif self.stage == "create" and "gone" not in answer:
            self.stage = None
            self.made += self.mode == "pull"
            self.inbox = self.made - 1
            self.number = 0
        return {"answer": answer}

    def answered_info(self):
        value = self.info(f"c1_{self.rng.randrange(3)}")
        if self.chance(15):
            error = self.rng.choice([{"code": 404, "err_code": 10014, "description": "consumer not found"}, {"code": 1}, {"code": 1, "err_code": None}, {"code": -1}, None, "x", {"code": 1, "description": None}])
            value["error"] = error
        if self.chance(8):
            key = self.rng.choice(list(value))
            value[key] = self.rng.choice([None, 1, -1, "x", [], {}, True, 2**64 - 1])
        if self.chance(5) and isinstance(value["config"], dict):
            key = self.rng.choice(list(value["config"]) + ["max_batch"])
            value["config"][key] = self.rng.choice([None, 1, -1, "x", [], {}, True, 2**64 - 1])
        if self.chance(30):
            text = json.dumps(value)
            if self.chance(10):
                text = self.rng.choice([text + " x", text[:-1], text.replace("0", "0.0"), text.replace("0", "-0"), "", "\ufeff" + text, " " + text + "\n", text + "\r\n"])
            return text
        return value

    def stray(self):
        """An arrival while a create is waited for, on the inbox that it may have opened."""
        inbox = self.guess(self.made - 1 if self.stage else self.inbox)
        number = self.rng.choice([1, 1, 2, 3])
        sequence = min(self.sequence + number, 2**64 - 1)
        return {"arrival": {"inbox": inbox, "reply": self.reply_text(sequence, number), "payload": "held"}}

    # Lines that may not read.

    def spoiled(self, lines):
        """The same lines, one of which was changed in a way that may keep it from reading."""
        rng = self.rng
        place = rng.randrange(len(lines))
        old = lines[place]
        ways = [
            lambda: old[: rng.randrange(len(old))],
            lambda: old + b"x",
            lambda: b"",
            lambda: b" ",
            lambda: b"\xef\xbb\xbf" + old,
            lambda: old[:-1] + b',"unknown":1}',
            lambda: old[:-1] + b',"link":"open"}',
            lambda: old[:-1] + b',"link":null}',
            lambda: old[:-1] + b',"tick":1.5,"tick":1}',
            lambda: old[:-1] + b',"at":5}',
            lambda: old[:-1] + b',"at":1e0}',
            lambda: old[:-1] + b',"at":-0}',
            lambda: old[:-1] + b',"at":"5"}',
            lambda: old[:-1] + b',"at":18446744073709551615}',
            lambda: old[:-1] + b',"at":18446744073709551616}',
            lambda: old[:-1] + b',"at":null}',
            lambda: old[:-1] + b',"x":"\\ud800"}',
            lambda: old[:-1] + b',"x":"\xff"}',
            lambda: old[:-1] + b',"x":"\x01"}',
            lambda: b'{"at":1,"x":1e999,"x":1}',
            lambda: b'{"at":' + str(self.at).encode() + b',"link":"open","link":"closed"}',
            lambda: b'{"at":' + str(self.at).encode() + b',"link":0.5,"link":"closed"}',
            lambda: b"[]",
            lambda: b"null",
            lambda: b'{"at":1,"answer":{"request":1,"gone":' + rng.choice([b"false", b"null", b"1", b"true", b'true,"payload":null', b'true,"subject":"a"']) + b"}}",
            lambda: b'{"at":1,"answer":{"request":' + rng.choice([b"0", b"-1", b"1.0", b"null", b'"1"']) + b"}}",
            lambda: b'{"at":1,"arrival":{"inbox":1,' + rng.choice([
                b'"status":65536', b'"status":-1', b'"status":null', b'"payload":1', b'"payload":true', b'"payload":[1.5]', b'"payload":"\\u0000"',
                b'"headers":{}', b'"headers":[["a"]]', b'"headers":[["a","b","c"]]', b'"headers":[["a",null]]', b'"headers":[]', b'"description":1',
                b'"reply":null', b'"reply":1', b'"subject":1', b'"length":1', b'"request":1', b'"gone":true',
            ]) + b"}}",
            lambda: b'{"at":1,"arrival":' + rng.choice([b"{}", b"null", b"[]", b'{"inbox":null}', b'{"inbox":1}']) + b"}",
            lambda: b'{"at":1,"connection":' + rng.choice([b'"open"', b"null", b'"Connected"', b'"connected"']) + b"}",
            lambda: b'{"at":1,"watcher":' + rng.choice([b'"end"', b"null", b"true", b'"ended"']) + b"}",
            lambda: b'{"at":1,"arrival":{"inbox":9,"payload":' + self.nested() + b"}}",
            lambda: self.spoiled_setup(),
        ]
        new = rng.choice(ways)()
        return lines[:place] + new.split(b"\n") + lines[place + 1 :]

    def nested(self):
        depth = self.rng.choice([10, 124, 125, 126, 127, 128, 200])
        return b"[" * depth + b"]" * depth

    def spoiled_setup(self):
        """A setup in which one part is of another kind, or missing."""
        rng = self.rng
        value = setup(self.mode)
        parts = [value, value["settings"], value["config"], value["info"], value["info"]["config"], value["info"]["delivered"]]
        part = rng.choice(parts)
        keys = list(part) + ["settings", "api_prefix", "inbox_prefix", "retries", "context_timeout", "request_timeout", "deliver_subject", "durable_name"]
        keys += ["ack_policy", "max_deliver", "filter_subject", "filter_subjects", "sample_freq", "metadata", "backoff", "pause_until", "cluster", "paused"]
        keys += ["opt_start_seq", "opt_start_time", "deliver_policy", "pause_remaining", "last_active", "priority_groups", "idle_heartbeat", "max_expires"]
        key = rng.choice(keys)
        if self.chance(25):
            part.pop(key, None)
        else:
            part[key] = rng.choice([
                None, 0, 1, -1, 2**63 - 1, 2**63, 2**64 - 1, 4_294_967_295, 4_294_967_296, "", "x", "all", "30%", "30%%", "%", "256", "by_start_sequence", "by_start_time",
                CREATED, "2026-01-01", "2026-13-01T00:00:00Z", "2026-01-01T00:00:00Z[u-ca=x]", "2026-01-01T00:00:00Z[!u-ca=x]", [], ["a"], [1], [None], [[]], [{"group": "g"}],
                {}, {"a": "b"}, {"a": 1}, {"name": 1}, {"name": None}, True, False,
            ])
        return line(value)[:-1]


def mix(seed):
    return [Mix(seed).transcript()]


def main(words):
    if not words or words[0] not in ("arrivals", "recreations", "held", "ticks", "entries", "mix"):
        print(__doc__, file=sys.stderr)
        return 2
    count = int(words[1]) if len(words) > 1 else None
    pieces = {
        "arrivals": lambda: arrivals(),
        "recreations": lambda: recreations(),
        "held": lambda: held(count or 100_000),
        "ticks": lambda: ticks(count or 7_000_000),
        "entries": lambda: entries(count or 200_000),
        "mix": lambda: mix(count or 0),
    }[words[0]]()
    for piece in pieces:
        sys.stdout.buffer.write(piece)
    return 0


if __name__ == "__main__":
    sys.exit(main(sys.argv[1:]))
