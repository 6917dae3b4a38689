"""Checks the log of a play, entry by entry, apart from the program.

The log has to be that of a history that is legal (each entry is allowed after those before it, and has just the effects that the
algorithms give), complete for the script and the media, staffed for a number of workers, and at rest at its end, with each claim
delivered or given up. In a log of the core each claim, publication and wait is the first that is allowed, as well. Each track's file has
to be, sample by sample, the clear bytes or the decryption under the claim's key, and the summary that of the history. The first fault
ends the check as `Wrong`.
"""
import collections
import re
from typing import NamedTuple

from formats_page import LIMITS
from samples import Sample, open_sample
from script_reader import CALLS
from world import Session, World

CLAIM_WINDOW = LIMITS["CLAIM_WINDOW"]

NUMBER, KID = "(0|[1-9][0-9]*)", "((?:[0-9a-f]{2})+)"
FORMS = {
    "call": (NUMBER, NUMBER), "job": (), "task": (), "tick": (NUMBER, NUMBER), "feed": (NUMBER, "(0|[1-9][0-9]*|-)"),
    "claim": (NUMBER, NUMBER, NUMBER, NUMBER, KID), "deliver": (NUMBER, "(taken|stale)"), "giveup": (NUMBER,),
    "publish": (NUMBER, NUMBER, NUMBER), "clear": (NUMBER, NUMBER), "wait": (NUMBER,), "settle": (NUMBER,), "evict": (NUMBER,),
}
# the words by which an entry says which of those allowed was taken; in this order a settle on one thread looks for a step
CHOSEN = {"publish": slice(0, 3), "clear": slice(0, 2), "claim": slice(1, 3), "wait": slice(0, 1)}
TEXTS = {verb: re.compile(" ".join((NUMBER, verb, *words))) for verb, words in FORMS.items()}


class Wrong(Exception):
    """What is wrong: a kind, the line of the log or none, and words for it.

    Syntax: a line is no entry with the next place. Order: it is not what the script's lines or the fragments have next. Illegal: it is not
    allowed after the entries before it. Effects: an effect is missing, another one, or too many. Staffing: a worker that is not there,
    or that gives up what it may not. Incomplete: the log ends too early. Open: a claim was not ended. Choice: it is allowed, and not
    what the core takes first. Track, Summary: what stands beside the log.
    """

    def __init__(self, kind, line, what):
        super().__init__(f"{kind}{f' at line {line} of the log' if line else ''}: {what}")
        self.kind, self.line = kind, line


class Claim(NamedTuple):
    worker: int
    track: int
    index: int
    session: Session
    kid: bytes
    key: bytes
    sample: Sample


class Checker:
    def __init__(self, script, media, workers, is_of_the_core=False):
        self.media, self.workers = media, workers
        # whether claims, publications and waits have to be those that the core takes first: legal histories need not
        self.is_of_the_core = is_of_the_core
        self.world = World(media.tracks)
        self.lanes = {lane: collections.deque(it for it in script if it.lane == lane) for lane in range(LIMITS["MAX_LANES"])}
        self.fed, self.implied = 0, "settle"  # how many fragments are fed; the verb of the implied entry that comes next
        self.claims, self.live = {}, {}  # by their places: all claims, and those that are live
        self.live_on = {}  # the place of the live claim on a sample, by its track and index
        self.undelivered, self.taken = set(), set()
        self.given_up = collections.Counter()
        self.outputs = {track: [] for track in media.tracks}
        self.counted = collections.Counter()  # beside entries, stale deliveries and claims made while another worker held one
        self.place, self.line = 0, 0

    def wrong(self, kind, what):
        return Wrong(kind, self.line, what)

    def allow(self, allowed, what):
        if not allowed:
            raise self.wrong("Illegal", what)

    # The log

    def read(self, log):
        try:
            lines = log.decode().split("\n")
        except UnicodeDecodeError as fault:
            raise Wrong("Syntax", log[: fault.start].count(b"\n") + 1, "no UTF-8") from None
        if lines.pop() != "":
            raise Wrong("Syntax", len(lines) + 1, "the last line has no line feed")
        at = 0
        while at < len(lines):
            self.line = at + 1
            told = at + 1
            while told < len(lines) and lines[told].startswith("  "):
                told += 1
            self.compare(self.entry(lines[at]), [it[2:] for it in lines[at + 1 : told]])
            at = told
        self.line = len(lines) + 1
        self.end()

    def entry(self, text):
        """Takes an entry, and gives the lines of its effects."""
        verb = text.split(" ")[1] if " " in text else ""
        form = TEXTS[verb].fullmatch(text) if verb in TEXTS else None
        if form is None or int(form[1]) != self.place + 1:
            raise self.wrong("Syntax", f"{text!r} is no entry {self.place + 1}")
        self.place += 1
        self.counted[verb] += 1
        words = form.groups()[1:]
        first = self.first(verb) if self.is_of_the_core and verb in CHOSEN else None
        effects = getattr(self, verb)(*words) or []
        if first is not None and first != tuple(map(int, words[CHOSEN[verb]])):
            raise self.wrong("Choice", f"it is allowed, and the core takes {verb} {' '.join(map(str, first))} first")
        # only these change what sessions hold
        if verb in ("call", "job", "task", "tick", "evict"):
            self.end_lost_claims()
        return effects

    def compare(self, wanted, found):
        for i in range(max(len(wanted), len(found))):
            if i >= len(found):
                raise Wrong("Effects", self.line + 1 + i, f"{wanted[i]!r} is missing")
            if i >= len(wanted):
                raise Wrong("Effects", self.line + 1 + i, f"{found[i]!r} is no effect of this entry")
            if wanted[i] != found[i]:
                raise Wrong("Effects", self.line + 1 + i, f"{found[i]!r} stands for {wanted[i]!r}")

    def end_lost_claims(self):
        """A claim is live while its session holds its very key, usable, after every entry."""
        for place, claim in list(self.live.items()):
            if claim.session.usable_key(claim.kid, self.world.moment) != claim.key:
                self.end_claim(place)

    def end_claim(self, place):
        claim = self.live.pop(place, None)
        if claim is not None:
            del self.live_on[claim.track, claim.index]

    # The script's lines, and what is implied behind them

    def take_line(self, lane, number, verbs):
        """The line of that number, which has to be the next of its lane and of one of these verbs."""
        left = self.lanes.get(lane)
        if not left or left[0].number != number:
            raise self.wrong("Order", f"line {number} is not the next of lane {lane}, which is {left[0].number if left else 'none'}")
        if left[0].verb not in verbs:
            raise self.wrong("Order", f"line {number} is a {left[0].verb}")
        return left.popleft()

    def take_implied(self, verb):
        left = [it.number for lines in self.lanes.values() for it in lines]
        if left or verb != self.implied:
            raise self.wrong("Order", f"an implied {verb} comes before {f'line {min(left)}' if left else f'the implied {self.implied}' if self.implied else 'nothing'}")
        self.implied = "settle" if verb == "feed" else "feed" if self.fed < len(self.media.fragments) else None

    def call(self, lane, number):
        line = self.take_line(int(lane), int(number), CALLS)
        return self.world.taken(self.world.call, line.verb, line.words)

    def tick(self, number, moment):
        line = self.take_line(0, int(number), ("clock",))
        if line.words[0] != moment.encode():
            raise self.wrong("Order", f"the moment of line {number} is {line.words[0].decode()}")
        self.allow(int(moment) >= self.world.moment, "the moment goes back")
        return self.world.taken(self.world.tick, int(moment))

    def evict(self, number):
        line = self.take_line(0, int(number), ("evict",))
        return self.world.taken(self.world.evict, *line.words)

    def feed(self, number, fragment):
        if number == "0":
            self.take_implied("feed")
        else:
            self.take_line(0, int(number), ("feed",))
        is_left = self.fed < len(self.media.fragments)
        if fragment != (str(self.fed + 1) if is_left else "-"):
            raise self.wrong("Order", f"fragment {fragment} is not the next, which is {self.fed + 1 if is_left else 'none'}")
        if is_left:
            self.fed += 1
            return self.world.taken(self.world.feed, self.media.fragments[self.fed - 1])

    def settle(self, number):
        if number == "0":
            self.take_implied("settle")
        else:
            self.take_line(0, int(number), ("settle",))
        unrested = self.world.unrested()
        self.allow(unrested is None, f"a settle, but {unrested}")

    # Steps

    def job(self):
        self.allow(self.world.jobs, "no job is queued")
        return self.world.taken(self.world.job)

    def task(self):
        self.allow(self.world.tasks, "no task is queued")
        return self.world.taken(self.world.task)

    def track(self, id):
        self.allow(int(id) in self.world.tracks, f"there is no track {id}")
        return self.world.tracks[int(id)]

    def head(self, id, index, is_protected):
        """The track whose head has this index and is protected or not."""
        track = self.track(id)
        self.allow(int(index) == track.published, f"sample {index} is not the head of track {id}, which is {track.published}")
        self.allow(track.head() is not None, f"sample {index} of track {id} is not fed")
        self.allow((track.head().protection is not None) == is_protected, f"sample {index} of track {id} is {'clear' if is_protected else 'protected'}")
        return track

    def claim(self, worker, id, index, session, kid):
        track, at, kid = self.track(id), int(index), bytes.fromhex(kid)
        self.allow(at < len(track.samples), f"sample {index} of track {id} is not fed")
        sample = track.samples[at]
        self.allow(sample.protection is not None, f"sample {index} of track {id} is clear")
        self.allow(sample.protection.kid == kid, f"sample {index} of track {id} has another key id")
        self.allow(track.published <= at < track.published + CLAIM_WINDOW, f"sample {index} is outside the window of track {id}, which begins at {track.published}")
        self.allow(not track.is_waiting, f"track {id} waits")
        self.allow((int(id), at) not in self.live_on, f"a live claim is on sample {index} of track {id}")
        picked, key = self.world.pick(kid) or (None, None)
        self.allow(picked is not None, "no session has a usable key of that id")
        self.allow(picked.number == int(session), f"the first session with a usable key is {picked.number}")
        if int(worker) > self.workers:
            raise self.wrong("Staffing", f"there is no worker {worker}")
        if any(self.claims[it].worker != int(worker) for it in self.undelivered):
            self.counted["beside"] += 1
        self.claims[self.place] = self.live[self.place] = Claim(int(worker), int(id), at, picked, kid, key, sample)
        self.live_on[int(id), at] = self.place
        self.undelivered.add(self.place)

    def hand_in(self, place):
        """The place of a claim that is neither delivered nor given up, and now is."""
        self.allow(int(place) in self.undelivered, f"entry {place} is no claim that is neither delivered nor given up")
        self.undelivered.remove(int(place))
        return int(place)

    def deliver(self, place, verdict):
        is_live = self.hand_in(place) in self.live
        self.allow((verdict == "taken") == is_live, f"the claim of entry {place} is {'' if is_live else 'not '}live")
        if is_live:
            self.taken.add(int(place))
        else:
            self.counted["stale"] += 1

    def giveup(self, place):
        place = self.hand_in(place)
        self.end_claim(place)
        worker = self.claims[place].worker
        self.given_up[worker] += 1
        if worker == 0 or self.given_up[worker] > 1:
            raise self.wrong("Staffing", f"worker {worker} gives up {'a claim' if worker == 0 else 'a second claim'}")

    def publish(self, id, index, place):
        track, at = self.head(id, index, True), int(place)
        self.allow(at in self.claims and (self.claims[at].track, self.claims[at].index) == (int(id), int(index)), f"entry {place} is no claim on that sample")
        self.allow(at in self.taken, f"the claim of entry {place} was not delivered as taken")
        self.allow(at in self.live, f"the claim of entry {place} is not live")
        self.end_claim(at)
        track.published += 1
        self.outputs[int(id)].append(open_sample(self.claims[at].sample, self.claims[at].key))

    def clear(self, id, index):
        track = self.head(id, index, False)
        self.outputs[int(id)].append(track.head().data)
        track.published += 1

    def wait(self, id):
        track = self.track(id)
        self.allow(not track.is_waiting, f"track {id} waits already")
        self.head(id, track.published, True)
        self.allow((int(id), track.published) not in self.live_on, f"a live claim is on the head of track {id}")
        self.allow(self.world.pick(track.head().protection.kid) is None, f"a session has a usable key for the head of track {id}")
        return self.world.taken(self.world.wait, int(id))

    # What the core takes first

    def first(self, verb):
        """Which publication, clear sample, claim or wait is allowed on the first track that allows one; none where no track does."""
        choice = getattr(self, f"first_{verb}")
        return next(filter(None, (choice(id, track) for id, track in self.world.tracks.items())), None)

    def first_publish(self, id, track):
        place = self.live_on.get((id, track.published))
        return (id, track.published, place) if place in self.taken else None

    def first_clear(self, id, track):
        head = track.head()
        return (id, track.published) if head is not None and head.protection is None else None

    def first_claim(self, id, track):
        """The least index that may be claimed."""
        if track.is_waiting:
            return None
        for index in range(track.published, min(track.published + CLAIM_WINDOW, len(track.samples))):
            protection = track.samples[index].protection
            if protection is not None and (id, index) not in self.live_on and self.world.pick(protection.kid) is not None:
                return id, index
        return None

    def first_wait(self, id, track):
        head = track.head()
        is_bare = head is not None and head.protection is not None and (id, track.published) not in self.live_on
        return (id,) if is_bare and not track.is_waiting and self.world.pick(head.protection.kid) is None else None

    # The end

    def end(self):
        for lane, lines in self.lanes.items():
            if lines:
                raise self.wrong("Incomplete", f"line {lines[0].number} of lane {lane} has no entry")
        if self.implied is not None:
            raise self.wrong("Incomplete", f"the implied {self.implied} is missing")
        unrested = self.world.unrested()
        if unrested is not None:
            raise self.wrong("Incomplete", f"the log ends, but {unrested}")
        if self.undelivered:
            raise self.wrong("Open", f"the claim of entry {min(self.undelivered)} is neither delivered nor given up")

    # What stands beside the log

    def compare_track(self, id, found):
        place = 0
        for index, output in enumerate(self.outputs[id]):
            if found[place : place + len(output)] != output:
                raise Wrong("Track", None, f"sample {index} of track {id}, at byte {place} of its file, is not {output[:32].hex()}{'..' if len(output) > 32 else ''}")
            place += len(output)
        if place != len(found):
            raise Wrong("Track", None, f"the file of track {id} has {len(found) - place} bytes more")

    def waits(self, track):
        if not track.is_waiting:
            return "no"
        return "later" if self.world.is_later(track.head().protection.kid) else "yes"

    def summary(self):
        promises = collections.Counter(self.world.promises)
        lines = [f"entries {self.place}", f"promises {len(self.world.promises)} resolved {promises['resolved']} rejected {promises['rejected']}"]
        for id, track in self.world.tracks.items():
            size = sum(map(len, self.outputs[id]))
            lines.append(f"track {id} samples {track.published} bytes {size} waiting {self.waits(track)}")
        return "".join(f"{it}\n" for it in lines)


def check(script, media, log, tracks, summary, workers, is_of_the_core=False):
    """Checks a play: its log, the bytes of its track files, and, where it is given, its summary. Gives the checker, with what it counted."""
    checker = Checker(script, media, workers, is_of_the_core)
    checker.read(log)
    for id in media.tracks:
        if id not in tracks:
            raise Wrong("Track", None, f"track {id} has no file")
        checker.compare_track(id, tracks[id])
    if summary is not None and summary.decode() != checker.summary():
        raise Wrong("Summary", None, f"{summary.decode()!r} stands for {checker.summary()!r}")
    return checker
