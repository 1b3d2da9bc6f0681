"""What the processes below one work for, by crate, and the processor time that they take."""
import os

TICK = os.sysconf("SC_CLK_TCK")
KINDS = ("proof", "tests", "wrong bodies")


def processes():
    """The parent, the start and the seconds of each process, with those of its children that have ended."""
    found = {}
    for name in os.listdir("/proc"):
        if name.isdigit():
            try:
                with open(f"/proc/{name}/stat", encoding="utf-8", errors="replace") as it:
                    fields = it.read().rpartition(")")[2].split()
            except OSError:
                continue
            found[int(name)] = int(fields[1]), fields[19], sum(map(int, fields[11:15])) / TICK
    return found


def part_of(pid):
    """The crate and the kind that a process works for, if it is one that checks or builds."""
    try:
        with open(f"/proc/{pid}/cmdline", encoding="utf-8", errors="replace") as it:
            words = it.read().split("\0")
        folder = os.readlink(f"/proc/{pid}/cwd")
    except OSError:
        return None
    if "--crate-name" not in words[:-1]:
        return None
    is_edit = "/rt-edit-" in folder or "/refused-" in folder
    return words[words.index("--crate-name") + 1], KINDS[2 if is_edit else 1 if "--test" in words else 0]


class Watch:
    """The seconds of each process that checks or builds, as last seen, and which are there now."""

    def __init__(self, top):
        self.top, self.parts, self.seconds, self.now = top, {}, {}, []

    def look(self):
        seen, below = processes(), {}
        for pid, (parent, *_) in seen.items():
            below.setdefault(parent, []).append(pid)
        self.now = []
        self.walk(self.top, None, seen, below)

    def walk(self, pid, within, seen, below):
        """Adds up the live processes under each that is the first of its line to say a crate."""
        if pid not in seen:
            return 0
        _, start, seconds = seen[pid]
        key = pid, start
        if not within and key not in self.parts:
            # (a process that hasn't begun its command yet says none)
            part = part_of(pid)
            if part:
                self.parts[key] = part
        is_first = not within and key in self.parts
        if is_first:
            self.now.append(self.parts[key])
        for child in below.get(pid, []):
            seconds += self.walk(child, within or is_first, seen, below)
        if is_first:
            self.seconds[key] = max(self.seconds.get(key, 0), seconds)
        return seconds

    def sums(self):
        sums = {}
        for key, part in self.parts.items():
            sums[part] = sums.get(part, 0) + self.seconds.get(key, 0)
        return sums
