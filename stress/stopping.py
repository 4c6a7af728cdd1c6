"""A preload that notes how much of a gateway's journal was synced last, so that a stop of the machine can be tried."""
import mmap
import os
import random
import struct
import subprocess
from pathlib import Path

from .refusing import compiler

SOURCE = Path(__file__).with_name("stop.c")
# how long a sync takes at most, in microseconds: a stop comes before the end of many
DELAY = 4000


class Stopping:
    """The machine on which a gateway runs, as its journal sees it."""

    def __init__(self, folder, journal, seed):
        self.library, self.file, self.journal = Path(folder, "stop.so"), Path(folder, "synced"), journal
        self.chance, self.stops, self.losses, self.lost = random.Random(f"{seed} stops"), 0, 0, 0
        words = [compiler(), "-O2", "-shared", "-fPIC", "-o", str(self.library), str(SOURCE), "-ldl"]
        subprocess.run(words, check=True)
        self.file.write_bytes(bytes(mmap.PAGESIZE))
        with open(self.file, "r+b") as file:
            self.shared = mmap.mmap(file.fileno(), mmap.PAGESIZE)

    def environment(self):
        return {"LD_PRELOAD": str(self.library), "STRESS_STOP_FILE": str(self.file),
                "STRESS_STOP_JOURNAL": str(self.journal), "STRESS_STOP_DELAY": str(DELAY)}

    def stop(self):
        """The machine stops: of what wasn't synced a beginning is left, and the rest is lost."""
        synced = struct.unpack("=Q", self.shared[:8])[0]
        size = self.journal.stat().st_size if self.journal.exists() else 0
        self.stops += 1
        if size > synced:
            left = self.chance.randint(synced, size)
            os.truncate(self.journal, left)
            self.losses += 1
            self.lost += size - left
