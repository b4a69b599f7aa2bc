"""A joint between a program and a server, for the checks, that goes on over restarts of its server."""
import os
import socket
import threading
import time


class Files:
    """Joins two files to a server. It takes new ones where the connection ends, and connects again. Both are closed where its block ends."""

    def __init__(self, address, folder):
        host, _, port = address.rpartition(":")
        self.address = host, int(port)
        self.ends = [os.path.join(folder, it) for it in ("from", "to")]
        self.words = ["--from", self.ends[0], "--to", self.ends[1]]
        self.connected = 0
        self.is_over = False

    def __enter__(self):
        self.make()
        threading.Thread(target=self.join, daemon=True).start()
        return self

    def __exit__(self, *_):
        self.is_over = True

    def make(self):
        """Puts new files in the place of the old ones, which stay with those that have them open."""
        for end in self.ends:
            os.mkfifo(end + ".new")
            os.rename(end + ".new", end)

    def connect(self):
        """A connection, as soon as the server takes one; or None where the block has ended."""
        while not self.is_over:
            try:
                return socket.create_connection(self.address)
            except OSError:
                time.sleep(0.05)
        return None

    def join(self):
        while not self.is_over:
            with open(self.ends[1], "rb", buffering=0) as written, open(self.ends[0], "wb", buffering=0) as read:
                if server := self.connect():
                    self.connected += 1
                    threading.Thread(target=self.carry, args=(written, server), daemon=True).start()
                    self.bring(server, read)
                    if not self.is_over:
                        self.make()

    @staticmethod
    def bring(server, read):
        try:
            while piece := server.recv(65_536):
                while piece:
                    piece = piece[read.write(piece) :]
        except OSError:
            pass

    @staticmethod
    def carry(written, server):
        """Carries until the program has closed its end, and then ends the connection."""
        try:
            while piece := written.read(65_536):
                server.sendall(piece)
            server.shutdown(socket.SHUT_RDWR)
        except (OSError, ValueError):
            pass
