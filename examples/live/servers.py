"""A nats-server with JetStream on a free loopback port, in a temporary folder, for a check: `with Server(folder) as server`."""
import os
import shutil
import socket
import subprocess
import time

from plain import Closed, Connection

# Where a server may stand that is not on the PATH.
FURTHER = ("/usr/sbin", "/usr/local/sbin")
# How long a server may take to start and to stop, in seconds.
PATIENCE = 10.0


def executable():
    """The path of nats-server, or None."""
    return shutil.which("nats-server", path=os.pathsep.join([os.environ.get("PATH", ""), *FURTHER]))


def free_port():
    with socket.socket() as it:
        it.bind(("127.0.0.1", 0))
        return it.getsockname()[1]


class Server:
    """A server that is stopped where its block ends."""

    def __init__(self, folder):
        self.folder = folder
        self.port = free_port()
        self.address = f"127.0.0.1:{self.port}"
        self.process = None

    def __enter__(self):
        self.start()
        return self

    def __exit__(self, *_):
        self.stop()

    def words(self):
        """What it is started with, beside its address."""
        return ["-js", "-sd", self.folder]

    def start(self):
        words = [executable(), "-a", "127.0.0.1", "-p", str(self.port), *self.words()]
        self.process = subprocess.Popen([*words, "-l", os.path.join(self.folder, "log")], start_new_session=True)
        last = time.monotonic() + PATIENCE
        while not self.answers():
            if self.process.poll() is not None or time.monotonic() > last:
                self.stop()
                raise Closed("nats-server did not start")
            time.sleep(0.05)

    def answers(self):
        """Whether its JetStream answers."""
        try:
            connection = Connection(self.address)
            answer = connection.request("$JS.API.INFO", b"")
            connection.close()
            return answer.status is None
        except Closed:
            return False

    def stop(self):
        if self.process.poll() is None:
            self.process.terminate()
            try:
                self.process.wait(PATIENCE)
            except subprocess.TimeoutExpired:
                self.process.kill()
                self.process.wait()

    def restart(self):
        self.stop()
        self.start()
