"""The log of a play on one thread, made apart from the program: the lines of lane 0 in their order, and in a settle the first step that is
enabled of job, task, publication of a claimed sample, of a clear one, claim with its delivery, wait. Tracks stand in their order."""
from history import CHOSEN, Checker


class Writer:
    def __init__(self, script, media):
        self.script, self.media = script, media
        self.checker = Checker(script, media, 0)
        self.lines = []

    def add(self, text):
        entry = f"{self.checker.place + 1} {text}"
        self.lines += [entry, *(f"  {it}" for it in self.checker.entry(entry))]

    def step(self):
        """Makes the first step that is enabled, and tells whether there was one."""
        world = self.checker.world
        if world.jobs or world.tasks:
            self.add("job" if world.jobs else "task")
            return True
        for verb in CHOSEN:
            first = self.checker.first(verb)
            if first is None:
                continue
            if verb == "claim":
                kid = world.tracks[first[0]].samples[first[1]].protection.kid
                self.add(f"claim 0 {first[0]} {first[1]} {world.pick(kid)[0].number} {kid.hex()}")
                self.add(f"deliver {self.checker.place} taken")
            else:
                self.add(f"{verb} {' '.join(map(str, first))}")
            return True
        return False

    def feed(self, number):
        fed = self.checker.fed
        self.add(f"feed {number} {fed + 1 if fed < len(self.media.fragments) else '-'}")

    def settle(self, number):
        while self.step():
            pass
        self.add(f"settle {number}")

    def write(self):
        for line in self.script:
            if line.verb == "feed":
                self.feed(line.number)
            elif line.verb == "settle":
                self.settle(line.number)
            elif line.verb == "clock":
                self.add(f"tick {line.number} {line.words[0].decode()}")
            elif line.verb == "evict":
                self.add(f"evict {line.number}")
            else:
                self.add(f"call {line.lane} {line.number}")
        self.settle(0)
        for _ in range(self.checker.fed, len(self.media.fragments)):
            self.feed(0)
            self.settle(0)
        return "".join(f"{it}\n" for it in self.lines).encode()


def alone_log(script, media):
    return Writer(script, media).write()
