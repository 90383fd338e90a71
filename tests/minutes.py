"""Where a gate's processor minutes go: those of `rt ci` by what its processes do, seen twice a second."""
import os
import resource
import threading

TOP = os.path.dirname(os.path.dirname(os.path.abspath(__file__)))
# Where ./test all leaves what it took.
FILE = f"{TOP}/out/minutes"
TICKS = os.sysconf("SC_CLK_TCK")


def spent():
    """The processor seconds of all that has ended below this process."""
    used = resource.getrusage(resource.RUSAGE_CHILDREN)
    return used.ru_utime + used.ru_stime


def processes():
    """Each process: its parent, when it began, and its processor seconds with those of its children that have ended."""
    found = {}
    for name in os.listdir("/proc"):
        if name.isdigit():
            try:
                with open(f"/proc/{name}/stat", encoding="utf-8", errors="replace") as it:
                    words = it.read().rpartition(")")[2].split()
            except OSError:
                continue
            found[int(name)] = int(words[1]), words[19], sum(map(int, words[11:15])) / TICKS
    return found


def part_of(process):
    """What a process that `rt ci` started does, by its words and by where it works."""
    try:
        with open(f"/proc/{process}/cmdline", encoding="utf-8", errors="replace") as it:
            words = it.read().split("\0")
        folder = os.readlink(f"/proc/{process}/cwd")
    except OSError:
        return None
    if os.path.basename(folder).startswith("rt-edit-"):
        return "edits"
    if "--test" in words or os.path.basename(words[0]) == "rattle-test":
        return "tests"
    if "/rt-run-" in folder or "--crate-checked" in words:
        return "programs"
    return "proofs"


class Minutes:
    """Watches what a process starts, and adds up by part."""

    def __init__(self, process):
        self.process, self.seen, self.is_over = process, {}, threading.Event()
        self.thread = threading.Thread(target=self.watch, daemon=True)
        self.thread.start()

    def watch(self):
        while not self.is_over.wait(0.5):
            found = processes()
            below = {}
            for process, (parent, _, _) in found.items():
                below.setdefault(parent, []).append(process)
            for child in below.get(self.process, []):
                seconds, left = 0.0, [child]
                while left:
                    it = left.pop()
                    seconds, left = seconds + found[it][2], left + below.get(it, [])
                key = child, found[child][1]
                part = self.seen.get(key, (None, 0))[0]
                if part in (None, "proofs"):
                    part = part_of(child) or part
                if part:
                    self.seen[key] = part, seconds

    def ended(self, total):
        """The seconds by part, of so many in all: what was not seen is shared out as what was."""
        self.is_over.set()
        self.thread.join()
        parts = {"proofs": 0.0, "edits": 0.0, "tests": 0.0, "programs": 0.0}
        for part, seconds in self.seen.values():
            parts[part] += seconds
        share = total / (sum(parts.values()) or 1)
        return {part: seconds * share for part, seconds in parts.items()}
