"""The lock of a tokentree node, for Python 3.

    with Lock("/tmp/nodes/desk-1.sock", limit=5) as lock:
        ...                        # you hold the lock
        if lock.is_lost(): ...     # ask now and then; the block raises Lost at its end
As a program it holds the lock until standard input ends: python3 tokentree_lock.py SOCKET LIMIT
"""
import os
import select
import socket
import sys
import time


class Unavailable(Exception):
    """The node is not there, or has no room; a TimeoutError says that the lock was not granted in time."""


class Lost(Exception):
    """The lock was lost while it was held."""


class Lock:
    def __init__(self, path, limit):
        """The lock at the desk with this path; `limit` says how many seconds to wait for it."""
        self.path, self.limit, self.unread, self.lost = path, limit, b"", False

    def __enter__(self):
        self.socket = socket.socket(socket.AF_UNIX)
        try:
            self.socket.connect(self.path)
            self.socket.sendall(b"lock\n")
            word = self.line(self.limit)
        except OSError as fault:
            word = str(fault).encode()
        if word != b"granted":
            self.socket.close()
            raise TimeoutError("not granted in time") if word is None else Unavailable(word.decode() or "the node went away")
        return self

    def __exit__(self, *_):
        try:
            self.socket.sendall(b"unlock\n")
            self.lost = self.lost or self.line(10) != b"released"
        except OSError:
            self.lost = True
        self.socket.close()
        if self.lost:
            raise Lost

    def is_lost(self, wait=0):
        """Whether the node has ended the hold or is gone; waits up to `wait` seconds for that."""
        self.lost = self.lost or self.line(wait) is not None
        return self.lost

    def line(self, wait):
        """The node's next line; None if there is none within `wait` seconds, empty if the connection has ended."""
        end = time.monotonic() + wait
        while b"\n" not in self.unread:
            if not select.select([self.socket], [], [], max(0, end - time.monotonic()))[0]:
                return None
            if not (piece := self.socket.recv(256)):
                return b""
            self.unread += piece
        line, self.unread = self.unread.split(b"\n", 1)
        return line


if __name__ == "__main__":
    try:
        with Lock(sys.argv[1], float(sys.argv[2])) as held:
            print("granted", flush=True)
            while not held.is_lost():
                if 0 in select.select([held.socket, 0], [], [])[0] and not os.read(0, 4096):
                    break
        print("released")
    except (Lost, Unavailable, TimeoutError) as fault:
        print("lost" if isinstance(fault, Lost) else fault)
        sys.exit({Lost: 122, Unavailable: 125, TimeoutError: 124}[type(fault)])
