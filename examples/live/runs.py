"""Runs of `examples/live/pipe` on a server, for the checks: its joints, what goes in and what has to come out."""
import os
import random
import socket
import subprocess
import threading
import time

import servers
from lines import TOP, asked

HERE = os.path.dirname(os.path.abspath(__file__))
PIPE = os.path.join(HERE, "pipe")
BUILT = os.path.join(TOP, "crates", "jetstream_pipe", "out", "jetstream_pipe")
# Reads messages 1 to $2 from the server at $1 over as many connections as it takes, and counts these in the file `cuts`.
LOOP = """start=1
until "$0" "$1" consume events --start "$start" --count "$(($2 - start + 1))" $3 2>errors; do
  [ "$?" = 1 ] || exit 3
  next=$(sed -n 's/^go on with --start //p' errors)
  start=${next:-$start}
  echo x >>cuts
  sleep 0.1
done
"""
# How long a run may take, in seconds.
PATIENCE = 120.0


class Locked(servers.Server):
    """A server that asks who its client is."""

    def __init__(self, folder, words):
        super().__init__(folder)
        self.words = words

    def start(self):
        words = [servers.executable(), "-a", "127.0.0.1", "-p", str(self.port), "-js", "-sd", self.folder, *self.words]
        self.process = subprocess.Popen([*words, "-l", os.path.join(self.folder, "log")], start_new_session=True)
        time.sleep(1.0)


def shut(*ends):
    for it in ends:
        try:
            it.shutdown(socket.SHUT_RDWR)
        except OSError:
            pass


def connected(port):
    """A connection to a server of this machine, as soon as it takes one."""
    while True:
        try:
            return socket.create_connection(("127.0.0.1", port))
        except OSError:
            time.sleep(0.05)


class Relay:
    """Joins clients to a server, and cuts a connection once so many bytes of the server have passed."""

    def __init__(self, server, least, most):
        self.port, self.least, self.most = server.port, least, most
        self.listening = socket.create_server(("127.0.0.1", 0))
        self.address = f"127.0.0.1:{self.listening.getsockname()[1]}"
        threading.Thread(target=self.accept, daemon=True).start()

    def accept(self):
        while True:
            try:
                client, _ = self.listening.accept()
            except OSError:
                return
            server = connected(self.port)
            threading.Thread(target=self.carry, args=(client, server, None), daemon=True).start()
            left = random.randint(self.least, self.most)
            threading.Thread(target=self.carry, args=(server, client, left), daemon=True).start()

    @staticmethod
    def carry(one, other, left):
        try:
            while left is None or left > 0:
                piece = one.recv(65_536 if left is None else min(left, 65_536))
                if not piece:
                    break
                other.sendall(piece)
                left = None if left is None else left - len(piece)
        except OSError:
            pass
        shut(one, other)

    def close(self):
        self.listening.close()


class Loser:
    """Joins clients to a server, and loses some of the messages that the server sends, whole and once each."""

    def __init__(self, server, one_in):
        self.port, self.one_in = server.port, one_in
        self.lost = set()
        self.listening = socket.create_server(("127.0.0.1", 0))
        self.address = f"127.0.0.1:{self.listening.getsockname()[1]}"
        threading.Thread(target=self.accept, daemon=True).start()

    def accept(self):
        while True:
            try:
                client, _ = self.listening.accept()
            except OSError:
                return
            server = connected(self.port)
            threading.Thread(target=Relay.carry, args=(client, server, None), daemon=True).start()
            threading.Thread(target=self.sieve, args=(server, client), daemon=True).start()

    def sieve(self, one, other):
        """Carries frame by frame, but for those that are lost."""
        stream = one.makefile("rb")
        try:
            while line := stream.readline():
                words = line.split()
                body = stream.read(int(words[-1]) + 2) if words[0] in (b"MSG", b"HMSG") else b""
                if not self.takes(words):
                    other.sendall(line + body)
        except OSError:
            pass
        shut(one, other)

    def takes(self, words):
        """Whether it loses this message. That which is the last of its stream stays: nothing would show that it is missing."""
        if words[0] not in (b"MSG", b"HMSG") or not words[3].startswith(b"$JS.ACK."):
            return False
        tokens = words[3].split(b".")
        sequence = int(tokens[5])
        if tokens[8] == b"0" or sequence in self.lost or random.randrange(self.one_in):
            return False
        self.lost.add(sequence)
        return True

    def close(self):
        self.listening.close()


def run(address, *words, text=b"", expect=0):
    """What `pipe` writes, to standard output and to standard error."""
    done = subprocess.run([PIPE, address, *words], input=text, capture_output=True, timeout=PATIENCE)
    assert done.returncode == expect, f"{words} ended with {done.returncode}, not {expect}: {done.stderr.decode()}"
    return done.stdout.decode(), done.stderr.decode()


def make_stream(server, name="events"):
    config = {"name": name, "subjects": [f"{name}.>"], "retention": "limits", "storage": "file", "num_replicas": 1}
    asked(server.address, f"STREAM.CREATE.{name}", config)


def lines_of(first, last):
    return b"".join(b"message %d\n" % it for it in range(first, last + 1))


def messages_of(first, last, subject="events.a"):
    return "".join(f"{it} {subject} message {it}\n" for it in range(first, last + 1))


def outcomes_of(first, last, behind=0):
    return "".join(f"{it} {it + behind}\n" for it in range(first, last + 1))


def consumed(address, count, *words):
    """What `consume` writes of so many messages."""
    out, _ = run(address, "consume", "events", "--count", str(count), *words)
    return out


def consumers(server):
    return asked(server.address, "CONSUMER.NAMES.events", {})["consumers"] or []


def delete_consumers(server):
    """Deletes the stream's consumers as soon as it has some, and answers how many these were."""
    deleted = 0
    for _ in range(50):
        time.sleep(0.2)
        for name in consumers(server):
            asked(server.address, f"CONSUMER.DELETE.events.{name}", {})
            deleted += 1
        if deleted:
            break
    return deleted
