"""A preload that refuses the gateway requests for memory, switched on and off, and counted, by a file that both map."""
import mmap
import os
import shutil
import struct
import subprocess
from pathlib import Path

SOURCE = Path(__file__).with_name("refuse.c")
WORDS = struct.Struct("=QQQ")


def compiler():
    """The C compiler there is, or the one of the Rattle kit."""
    for name in (os.environ.get("CC", ""), "cc", "gcc", "clang"):
        if name and shutil.which(name):
            return name
    kit = subprocess.run(["rt", "doc"], capture_output=True, text=True, check=True).stdout.strip()
    return str(Path(kit).parent / "toolchain/bin/clang")


class Refusing:
    """Of the requests that come while it is on, one in so many is refused."""

    def __init__(self, folder, one_in, seed):
        self.library, self.file = Path(folder, "refuse.so"), Path(folder, "refused")
        self.one_in, self.seed = one_in, seed
        words = [compiler(), "-O2", "-shared", "-fPIC", "-o", str(self.library), str(SOURCE), "-ldl"]
        subprocess.run(words, check=True)
        self.file.write_bytes(bytes(mmap.PAGESIZE))
        with open(self.file, "r+b") as file:
            self.shared = mmap.mmap(file.fileno(), mmap.PAGESIZE)

    def environment(self):
        return {"LD_PRELOAD": str(self.library), "STRESS_REFUSE_FILE": str(self.file),
                "STRESS_REFUSE_ONE_IN": str(self.one_in), "STRESS_REFUSE_SEED": str(self.seed)}

    def behind_output(self):
        """The same, switched on behind each write to standard output."""
        return {**self.environment(), "STRESS_REFUSE_BEHIND_OUTPUT": "1"}

    def switch(self, is_on):
        self.shared[:8] = struct.pack("=Q", is_on)

    def counted(self):
        """How many requests were refused, and how many there were."""
        return WORDS.unpack(self.shared[:WORDS.size])[1:]
