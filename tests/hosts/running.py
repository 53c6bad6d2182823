"""A receiver that runs, and senders that talk to it from here."""

import collections
import socket
import subprocess
import threading
import time

from hosts.lists import ANSWERING, LIMIT, ROOT, fail

C = ROOT / "target/examples"
RUST = ROOT / "rust/target/debug/examples"
HOSTS = {"c": C, "rust": RUST}


class Receiver:
    """A receiver on a free port, and what it has said so far. It is killed where the test ends before it."""

    def __init__(self, host, said, *words, **how):
        self.had, self.said, self.rest, self.lock = [], collections.defaultdict(list), b"", threading.Lock()
        with open(said, "wb") as out:
            self.out = open(said, "rb")
            self.process = subprocess.Popen([HOSTS[host] / "receive", "0", str(LIMIT), *map(str, words)], stdout=out, **how)
        self.listening = self.until("a port", lambda: next(iter(self.lines()), None)).split()
        self.port = self.listening[1]

    def __enter__(self):
        return self

    def __exit__(self, *_):
        if self.process.poll() is None:
            self.process.kill()
        self.process.wait()
        self.out.close()

    def lines(self):
        """All lines that were said."""
        with self.lock:
            *lines, self.rest = (self.rest + self.out.read()).split(b"\n")
            for line in map(bytes.decode, lines):
                self.had.append(line)
                name, _, text = line.partition(" ")
                self.said[name].append(text)
        return self.had

    def uploads(self):
        """The lines of each upload, but those that say that it waits; those of connections without a name by `-`."""
        self.lines()
        names = self.said.keys() - {"listening", "ended"}
        return collections.defaultdict(list, {name: [line for line in self.said[name] if not line.startswith("waits ")] for name in names})

    def until(self, what, holds):
        end = time.monotonic() + ANSWERING
        while time.monotonic() < end:
            if self.process.poll() is not None:
                fail(f"the receiver has ended, waiting for {what}")
            if found := holds():
                return found
            time.sleep(0.02)
        fail(f"timed out waiting for {what}")

    def waited(self, name, bytes_arrived):
        """Waits until an upload does with so many bytes."""
        self.until(f"{name} to wait", lambda: self.lines() and f"waits {bytes_arrived}" in self.said[name])

    def connect(self):
        return socket.create_connection(("127.0.0.1", int(self.port)), ANSWERING)

    def says(self, *pieces, closes=True):
        """The receiver's answer to a sender that sends these pieces, and then closes or is silent."""
        with self.connect() as to:
            try:
                for piece in pieces:
                    to.sendall(piece)
                if closes:
                    to.shutdown(socket.SHUT_WR)
            except OSError:
                pass  # it is refused already
            return answer(to)


def answer(to):
    """What a receiver answers up to where it closes."""
    text = b""
    try:
        while piece := to.recv(100):
            text += piece
    except ConnectionResetError:
        pass  # it has closed before it had read all that was sent
    except TimeoutError:
        fail(f"a sender waits for its answer, and has {text!r}")
    return text.decode()


def cut(data, size):
    """Bytes in pieces of a size."""
    return [data[i : i + size] for i in range(0, len(data), size)]
