"""File systems that a test can fill up and have be read-only, in a mount namespace of their own that ends with the test."""
import contextlib
import os
import subprocess
import tempfile

SIZE = 256 * 1024  # bytes: many times the longest card


class Mount:
    """A small tmpfs. Its path leads into the namespace of the process that holds it."""

    def __init__(self, holder, place):
        self.holder, self.place = holder, place
        self.path = f"/proc/{holder.pid}/root{place}"

    def fill(self):
        """Until there is no room for another byte."""
        with open(os.path.join(self.path, "filler"), "ab", buffering=0) as file, contextlib.suppress(OSError):
            while True:
                file.write(bytes(512))

    def empty(self):
        os.remove(os.path.join(self.path, "filler"))

    def read_only(self):
        """The kernel refuses that while a file is open for writing."""
        line = ["nsenter", "--target", str(self.holder.pid), "--mount", "mount", "-o", "remount,ro", self.place]
        subprocess.run(line, check=True)


@contextlib.contextmanager
def mounted():
    """None where this user, or this machine, can mount nothing."""
    line = 'mount -t tmpfs -o "mode=755,size=$2" limpet "$1" && echo mounted && exec cat'
    with tempfile.TemporaryDirectory(prefix="limpet-mount-") as place:
        words = ["unshare", "--mount", "--propagation", "private", "sh", "-c", line, "sh", place, str(SIZE)]
        with subprocess.Popen(words, stdin=subprocess.PIPE, stdout=subprocess.PIPE, stderr=subprocess.DEVNULL) as holder:
            yield Mount(holder, place) if holder.stdout.readline() == b"mounted\n" else None


def left_out(what):
    print(f"left out, since no file system can be mounted here: {what}; tests/pcsc/disk.c stands in for it")
