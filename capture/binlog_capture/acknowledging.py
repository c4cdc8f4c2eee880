"""The acknowledgements that a semi-synchronous source waits for: `follow` writes them, and they are sent once its lines are
durable.
"""
import collections
import contextlib
import os

HEADER_LEN, READ_SIZE = 4, 1 << 16


class Acknowledging:
    """Takes acknowledgements from `follow`, and keeps the newest one that is due for the thread that has the connection: it
    counts for all before it.
    """

    def __init__(self):
        self.asked, self.into = os.pipe()
        self.due, self.wakes = os.pipe()
        os.set_blocking(self.wakes, False)
        self.rest, self.newest = b"", collections.deque(maxlen=1)

    def path(self):
        """The file that `follow` writes them to."""
        return f"/dev/fd/{self.into}"

    def begun(self):
        """`follow` has the end that is written to: ours is closed, so that reading ends with it."""
        os.close(self.into)
        self.into = None

    def read(self):
        """Reads what `follow` wrote; returns the newest whole acknowledgement, a packet, or no bytes. None: `follow` ended."""
        data = os.read(self.asked, READ_SIZE)
        if not data:
            return None
        self.rest += data
        at, newest = 0, b""
        while at + HEADER_LEN <= len(self.rest):
            after = at + HEADER_LEN + int.from_bytes(self.rest[at : at + 3], "little")
            if after > len(self.rest):
                break
            at, newest = after, self.rest[at:after]
        self.rest = self.rest[at:]
        return newest

    def send(self, packet):
        """An acknowledgement is due. Another one that wasn't sent yet is left out."""
        self.newest.append(packet)
        with contextlib.suppress(BlockingIOError):
            os.write(self.wakes, b"\0")

    def take(self):
        """The newest acknowledgement that is due and wasn't taken; no bytes if there is none."""
        os.read(self.due, READ_SIZE)
        return self.newest.pop() if self.newest else b""

    def close(self):
        for number in (self.asked, self.into, self.due, self.wakes):
            if number is not None:
                os.close(number)
