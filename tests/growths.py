"""Growths of memory of a program, which tests/refuse.c counts and refuses, for the scripts that look at them."""

import mmap
import os
import subprocess

HERE = os.path.dirname(os.path.abspath(__file__))


class Growths:
    """The library that refuses, the note of a refusal, and the count of the program that was begun last."""

    def __init__(self, work):
        self.library, self.note, self.counts = (os.path.join(work, name) for name in ("refuse.so", "note", "counts"))
        subprocess.run(["cc", "-shared", "-fPIC", "-O2", "-Wall", "-Werror", "-o", self.library, os.path.join(HERE, "refuse.c"), "-ldl"], check=True)
        with open(self.counts, "wb") as file:
            file.write(bytes(8))
        with open(self.counts, "rb") as file:
            self.seen = mmap.mmap(file.fileno(), 8, access=mmap.ACCESS_READ)

    def environment(self, number=None):
        """What a program is begun with: its growths are counted, and one of them is refused, where a number is given."""
        refuses = {} if number is None else {"REFUSE": str(number), "REFUSED": self.note}
        return os.environ | {"LD_PRELOAD": self.library, "GROWTHS": self.counts} | refuses

    def count(self):
        """How many there were so far."""
        return int.from_bytes(self.seen[:8], "little")

    def was_refused(self):
        """Whether the run before met its refusal, and whether that was to make a block smaller, which changes nothing. It is asked once."""
        met = os.path.exists(self.note)
        smaller = met and os.path.getsize(self.note) > 0
        if met:
            os.unlink(self.note)
        return met, smaller
