"""The plain NATS protocol over one connection, as far as these examples need it: no TLS, no authorization, payloads as bytes.

The words are those of the public page on the client protocol: INFO, CONNECT, SUB, UNSUB, PUB, MSG, HMSG, PING and PONG.
"""
import json
import socket
import threading
from typing import NamedTuple, Optional

# How long a connection may take to be made, and a reply to come, in seconds.
PATIENCE = 5.0


class Closed(Exception):
    """The connection is closed, or was never made."""


class Message(NamedTuple):
    """What the server sent on a subscription."""

    subscription: int
    subject: str
    reply: Optional[str]
    status: Optional[int]
    description: Optional[str]
    headers: list
    payload: bytes


def head(block):
    """The status, its description and the headers of a header block."""
    first, *lines = block.decode("utf-8").rstrip("\r\n").split("\r\n")
    words = first.split(" ", 2)
    status = int(words[1]) if len(words) > 1 else None
    description = words[2] if len(words) > 2 else None
    pairs = (line.partition(":") for line in lines)
    return status, description, [[name, value.strip()] for name, _, value in pairs]


class Connection:
    """A connection to the server at `HOST:PORT`. One thread reads it, and any may send."""

    def __init__(self, server):
        host, _, port = server.rpartition(":")
        self.sending = threading.Lock()
        self.asked = 0
        try:
            self.socket = socket.create_connection((host, int(port)), timeout=PATIENCE)
            self.stream = self.socket.makefile("rb")
            self.greet()
        except OSError as error:
            raise Closed(str(error)) from error

    def greet(self):
        """Reads who the server is and says how this end speaks; a PONG tells that it was understood."""
        self.info = json.loads(self.line().removeprefix(b"INFO "))
        manner = {"verbose": False, "pedantic": False, "headers": True, "no_responders": True, "protocol": 1, "lang": "python", "version": "0"}
        self.send(b"CONNECT " + json.dumps(manner).encode() + b"\r\nPING\r\n")
        while self.line() != b"PONG":
            pass
        self.socket.settimeout(None)

    def line(self):
        line = self.stream.readline()
        if not line.endswith(b"\n"):
            raise Closed("the server has closed the connection")
        if line.startswith(b"-ERR"):
            raise Closed(line.decode().strip())
        return line.rstrip(b"\r\n")

    def send(self, data):
        try:
            with self.sending:
                self.socket.sendall(data)
        except OSError as error:
            raise Closed(str(error)) from error

    def subscribe(self, subscription, subject):
        self.send(f"SUB {subject} {subscription}\r\n".encode())

    def unsubscribe(self, subscription):
        self.send(f"UNSUB {subscription}\r\n".encode())

    def publish(self, subject, payload, reply=None):
        words = " ".join(["PUB", subject, *([reply] if reply else []), str(len(payload))])
        self.send(words.encode() + b"\r\n" + payload + b"\r\n")

    def read(self):
        """The next message. What else the server says is answered or passed over here."""
        while True:
            try:
                word, *words = self.line().decode("utf-8").split(" ")
                if word == "PING":
                    self.send(b"PONG\r\n")
                elif word in ("MSG", "HMSG"):
                    return self.message(word == "HMSG", words)
            except OSError as error:
                raise Closed(str(error)) from error

    def message(self, has_headers, words):
        subject, subscription, *rest = words
        lengths = [int(it) for it in rest[-2:]] if has_headers else [0, int(rest[-1])]
        reply = rest[0] if len(rest) > (2 if has_headers else 1) else None
        whole = self.stream.read(lengths[1] + 2)
        if len(whole) < lengths[1] + 2:
            raise Closed("the server has closed the connection")
        status, description, headers = head(whole[: lengths[0]]) if has_headers else (None, None, [])
        return Message(int(subscription), subject, reply, status, description, headers, whole[lengths[0] : -2])

    def request(self, subject, payload):
        """The answer to a request, on a connection that does nothing else. Where none comes in time, `Closed`."""
        self.asked += 1
        inbox = f"_INBOX.{id(self):x}.{self.asked}"
        self.subscribe(self.asked, inbox)
        self.publish(subject, payload, inbox)
        self.socket.settimeout(PATIENCE)
        return self.read()

    def close(self):
        """Ends the connection, from any thread: a read that waits is over."""
        try:
            self.socket.shutdown(socket.SHUT_RDWR)
        except OSError:
            pass
        self.socket.close()
