"""The serial play of a paced script: a fold over its lines, without claims, workers or threads, written apart from the proved one.

A line does what it asks, then its job and its tasks, and what these queue; then each track moves to its first sample that is protected and
whose key id no session has a usable key for.
"""
import collections

from samples import open_sample
from script_reader import CALLS
from world import World


class Serial:
    def __init__(self, lines, media):
        self.world, self.left = World(media.tracks), collections.deque(media.fragments)
        self.tracks = {id: b"" for id in media.tracks}
        self.heard, self.is_agreeing = [], True
        for line in lines:
            if line.verb != "settle":
                self.line(line.verb, line.words)
        while self.left:
            self.line("feed", ())

    def line(self, verb, words):
        step, given = self.step_of(verb, words)
        self.heard += self.world.taken(step, *given)
        while self.world.jobs or self.world.tasks:
            self.heard += self.world.taken(self.world.job if self.world.jobs else self.world.task)
        for id, track in self.world.tracks.items():
            self.move(id, track)
        self.is_agreeing = self.is_agreeing and self.agree()

    def step_of(self, verb, words):
        if verb in CALLS:
            return self.world.call, (verb, words)
        if verb == "feed":
            return (self.world.feed, (self.left.popleft(),)) if self.left else (lambda: None, ())
        return (self.world.tick, (int(words[0]),)) if verb == "clock" else (self.world.evict, words)

    def move(self, id, track):
        while (sample := track.head()) is not None:
            pick = sample.protection and self.world.pick(sample.protection.kid)
            if sample.protection and pick is None:
                return
            self.tracks[id] += open_sample(sample, pick and pick[1])
            track.published += 1

    def agree(self):
        """Whether no two sessions hold different usable keys of one id."""
        moment, keys = self.world.moment, collections.defaultdict(set)
        for session in self.world.sessions:
            for kid in session.table:
                keys[kid].add(session.usable_key(kid, moment))
        return all(len(held - {None}) <= 1 for held in keys.values())

    def answer(self):
        """Its tracks, and all effects in their order, promises among them."""
        return self.tracks, self.heard


def is_paced(lines):
    """Whether all lines are of lane 0, and of two that follow each other one settles."""
    verbs = [it.verb for it in lines]
    return all(it.lane == 0 for it in lines) and all("settle" in pair for pair in zip(verbs, verbs[1:]))


def with_settles(script):
    """The script with a settle behind each line that is none."""
    head, *lines = script.decode().splitlines()
    paced = [it for line in lines if not line.endswith(" settle") for it in (line, "0 settle")]
    return "".join(f"{it}\n" for it in (head, *paced)).encode()
