"""A program that is fed its input in parts, each of which is timed by itself.

The clock is that of the program's processor time, read when the program has used up a part and waits
for more. So work on a large trie is timed without the reading of the trie, and other programs on the
machine lengthen it only by what they do to caches and to the clock rate.
"""

import array
import fcntl
import subprocess
import tempfile
import termios
import time

PAUSE = 0.0005


class Fed:
    """A program that reads lines from standard input."""

    def __init__(self, words):
        self.replies = tempfile.TemporaryFile()
        self.child = subprocess.Popen(words, stdin=subprocess.PIPE, stdout=self.replies)
        self.clock = ~self.child.pid * 8 + 2

    def feed(self, part):
        """Has the program use up a part, which ends a line, and answers the seconds that it took."""
        start = time.clock_gettime(self.clock)
        self.child.stdin.write(part)
        self.child.stdin.flush()
        while self.unread() or not self.waits():
            time.sleep(PAUSE)
        return time.clock_gettime(self.clock) - start

    def unread(self):
        """How many bytes of the part are in the pipe."""
        count = array.array("i", [0])
        fcntl.ioctl(self.child.stdin, termios.FIONREAD, count)
        return count[0]

    def waits(self):
        """Whether the program waits for input; it is an error where it has ended."""
        with open(f"/proc/{self.child.pid}/stat") as file:
            state = file.read().rpartition(")")[2].split()[0]
        if state in "ZX":
            raise RuntimeError(f"{self.child.args} ended early")
        return state == "S"

    def forget_peak(self):
        """From here on the peak is that of what is held now."""
        with open(f"/proc/{self.child.pid}/clear_refs", "w") as file:
            file.write("5")

    def held(self, name="VmRSS"):
        """The bytes of memory in use, or with VmHWM the most that were."""
        with open(f"/proc/{self.child.pid}/status") as file:
            return next(1024 * int(line.split()[1]) for line in file if line.startswith(name))

    def end(self):
        """Ends the input, and answers all that the program wrote."""
        self.child.communicate()
        if self.child.returncode != 0:
            raise RuntimeError(f"{self.child.args} ended with {self.child.returncode}")
        with self.replies as file:
            file.seek(0)
            return file.read().decode()
