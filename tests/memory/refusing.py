"""The library that refuses requests for memory (refuse.c), built, and the file by which it is told when."""

import mmap
import os
import struct
import subprocess

SOURCE = os.path.join(os.path.dirname(os.path.abspath(__file__)), "refuse.c")


class Refusing:
    """The library and the file, in a folder that is there."""

    def __init__(self, folder):
        library = os.path.join(folder, "refuse.so")
        subprocess.run(["cc", "-O2", "-fPIC", "-shared", "-o", library, SOURCE, "-ldl"], check=True)
        name = os.path.join(folder, "refuse")
        with open(name, "wb") as file:
            file.write(bytes(24))
        with open(name, "r+b") as file:
            self._numbers = mmap.mmap(file.fileno(), 24)
        self.environment = {"LD_PRELOAD": library, "REFUSE_FILE": name}

    def arm(self, number, count=1):
        """From now on the request of this number, from 1, is refused, and so many in all."""
        self._numbers[:] = struct.pack("QQQ", number, count, 0)

    def disarm(self):
        """No request is refused from now on. Answers how many were since they were armed."""
        refused = self.refused()
        self._numbers[:16] = bytes(16)
        return refused

    def refused(self):
        return struct.unpack("QQQ", self._numbers[:])[2]
