"""Plays that are bent: from a play of checks/bent each row makes one with one mistake, which the checker of histories has to refuse for
its reason; rows without a reason are as legal as the play itself."""
import pathlib
import re

import history
from alone import alone_log
from media_reader import Fragment, Media, read_media
from script_reader import read_script

FOLDER = pathlib.Path(__file__).resolve().parent.parent / "bent"
NAMES_A_CLAIM = re.compile(r"(deliver|giveup|publish \d+ \d+) (\d+)(.*)")


class Block:
    """An entry without its place, the entry of the claim that it names, and the lines of its effects."""

    def __init__(self, text, claim, effects):
        self.text, self.claim, self.effects = text, claim, effects

    def written(self, places):
        return self.text if self.claim is None else self.text.replace("@", str(places.get(self.claim, 0)))

    def copy(self):
        return Block(self.text, self.claim, list(self.effects))


class Log:
    """A log as a list of blocks, so that entries can be moved and all places are still right."""

    def __init__(self, text):
        self.blocks = []
        for line in text.splitlines():
            if line.startswith("  "):
                self.blocks[-1].effects.append(line)
                continue
            entry = line.split(" ", 1)[1]
            named = NAMES_A_CLAIM.fullmatch(entry)
            claim = self.blocks[int(named[2]) - 1] if named else None
            self.blocks.append(Block(f"{named[1]} @{named[3]}" if named else entry, claim, []))
        self.first = list(self.blocks)

    def text(self):
        places = {block: place for place, block in enumerate(self.blocks, 1)}
        lines = []
        for block, place in places.items():
            lines += [f"{place} {block.written(places)}", *block.effects]
        return "".join(f"{it}\n" for it in lines)

    def at(self, place):
        """The block that stood at this place before any bend."""
        return self.first[place - 1]

    def move(self, place, before):
        self.blocks.remove(self.at(place))
        self.blocks.insert(self.blocks.index(self.at(before)), self.at(place))

    def drop(self, *places):
        for place in places:
            self.blocks.remove(self.at(place))

    def double(self, place, before):
        self.blocks.insert(self.blocks.index(self.at(before)), self.at(place).copy())

    def say(self, place, text, claim=None):
        self.at(place).text = text
        if claim is not None:
            self.at(place).claim = self.at(claim)

    def add(self, text, before, claim=None, effects=()):
        block = Block(text, None if claim is None else self.at(claim), list(effects))
        self.blocks.insert(self.blocks.index(self.at(before)), block)


I1, I2 = "000102030405060708090a0b0c0d0e0f", "101112131415161718191a1b1c1d1e1f"


def closed_in_between(log):
    """The claim of worker 2 is delivered before its session is closed, and published after that."""
    log.move(26, before=23)
    log.say(26, "deliver @ taken")
    log.say(37, "publish 1 0 @", claim=20)


def expired_in_between(log, verdict, before):
    """A further claim on the head of track 1 is made before its key expires, and delivered before another entry."""
    log.add(f"claim 1 1 3 2 {I2}", before=52)
    claim = log.blocks[log.blocks.index(log.at(52)) - 1]
    log.add(f"deliver @ {verdict}", before=before)
    log.blocks[log.blocks.index(log.at(before)) - 1].claim = claim
    return claim


def granted_again(log):
    """It is delivered in time, and published when the key has come back."""
    log.at(70).claim = expired_in_between(log, "taken", before=52)


def without_the_last_call(log):
    """The last line of lane 2 has no entry, and the promises behind it have the numbers that they then have."""
    log.drop(35)
    for block in log.blocks:
        block.effects = [it.replace("promise 10 ", "promise 9 ") for it in block.effects]


def two_claims_given_up(log):
    log.say(39, f"claim 1 1 2 2 {I1}")
    log.say(41, "giveup @")
    log.drop(42)


def say_effect(place, number, text):
    return lambda log: log.at(place).effects.__setitem__(number, f"  {text}")


# Each row: its name, words of the refusal, or none where it is as legal as the play, and the bend.
LOGS = [
    ("the play itself", None, lambda log: None),
    ("a certificate a step later", None, lambda log: log.move(10, before=13)),
    ("two claims change places", None, lambda log: log.move(40, before=39)),
    ("a lost claim is delivered at the very end", None, lambda log: log.blocks.append(log.blocks.pop(log.blocks.index(log.at(33))))),
    ("a lost claim is delivered when its key has come back", None, lambda log: expired_in_between(log, "stale", before=68)),
    ("a call of another lane among the tasks", None, lambda log: log.move(35, before=32)),
    ("a wait before a clear sample of another track", None, lambda log: log.move(58, before=57)),
    # the order of steps
    ("a job before its call", "no job is queued", lambda log: log.move(14, before=13)),
    ("a task before its job", "no task is queued", lambda log: log.move(15, before=14)),
    ("a job too many", "no job is queued", lambda log: log.double(14, before=15)),
    ("a settle while a job is queued", "a settle, but a job is queued", lambda log: log.move(18, before=14)),
    ("a settle while a task is queued", "a settle, but a task is queued", lambda log: log.move(18, before=17)),
    ("a settle while a sample is not out", "a settle, but track 2 has more to give", lambda log: log.move(50, before=49)),
    ("a settle while a track has not begun to wait", "a settle, but track 2 has more to give", lambda log: log.move(62, before=60)),
    # claims
    ("a claim of a sample that is not fed", "sample 0 of track 1 is not fed", lambda log: log.move(20, before=19)),
    ("a claim on a track that is not there", "there is no track 3", lambda log: log.say(22, f"claim 1 3 2 1 {I1}")),
    ("a claim of a sample on which there is a live claim", "a live claim is on sample 0 of track 1", lambda log: log.add(f"claim 1 1 0 1 {I1}", before=22)),
    ("a claim of a clear sample", "sample 1 of track 1 is clear", lambda log: log.say(39, f"claim 0 1 1 2 {I1}")),
    ("a claim under another key id than the sample's", "has another key id", lambda log: log.say(68, f"claim 0 1 3 2 {I1}")),
    ("a claim under the second session that has the key", "the first session with a usable key is 1", lambda log: log.say(20, f"claim 2 1 0 2 {I1}")),
    ("a claim under a closed session", "the first session with a usable key is 2", lambda log: log.say(34, f"claim 0 1 0 1 {I1}")),
    ("a claim while no session has the key", "no session has a usable key of that id", lambda log: log.move(34, before=24)),
    ("a claim of a published sample", "the window of track 1, which begins at 2", lambda log: log.double(34, before=39)),
    ("a claim while its track waits", "track 1 waits", lambda log: log.move(68, before=66)),
    ("a claim of worker 3 of 2", "there is no worker 3", lambda log: log.say(22, f"claim 3 1 2 1 {I1}")),
    # deliveries
    ("a lost claim is taken", "the claim of entry 20 is not live", lambda log: log.say(26, "deliver @ taken")),
    ("a live claim is stale", "the claim of entry 34 is live", lambda log: log.say(36, "deliver @ stale")),
    ("a lost claim is taken when its key has come back", "the claim of entry 52 is not live", lambda log: expired_in_between(log, "taken", before=68)),
    ("a claim is delivered twice", "neither delivered nor given up", lambda log: log.double(26, before=33)),
    ("a delivery of what is no claim", "neither delivered nor given up", lambda log: log.say(26, "deliver @ stale", claim=19)),
    ("a claim is delivered and given up", "neither delivered nor given up", lambda log: log.say(46, "giveup @", claim=34)),
    ("a claim that is given up is delivered", "neither delivered nor given up", lambda log: log.add("deliver @ stale", before=50, claim=45)),
    ("a stale delivery is missing", "Open at", lambda log: log.drop(33)),
    ("worker 0 gives a claim up", "worker 0 gives up a claim", lambda log: log.say(45, f"claim 0 2 1 2 {I1}")),
    ("a worker gives two claims up", "worker 1 gives up a second claim", two_claims_given_up),
    # publications
    ("a delivery is missing, and its sample is published", "the claim of entry 34 was not delivered as taken", lambda log: log.drop(36)),
    ("a claim that was lost is published", "the claim of entry 20 was not delivered as taken", lambda log: log.say(37, "publish 1 0 @", claim=20)),
    ("a claim is published whose session was closed in between", "the claim of entry 20 is not live", closed_in_between),
    ("a claim is published whose key was lost and granted again", "the claim of entry 52 is not live", granted_again),
    ("a claim that was given up is published", "the claim of entry 45 was not delivered as taken", lambda log: (log.drop(47, 48), log.say(49, "publish 2 1 @", claim=45))),
    ("a sample is published before the one that stands before it", "sample 1 is not the head of track 2", lambda log: log.move(49, before=44)),
    ("a sample is published twice", "sample 0 is not the head of track 1", lambda log: log.double(37, before=38)),
    ("a claim is published as another sample", "no claim on that sample", lambda log: log.say(42, "publish 1 2 @", claim=40)),
    ("a claim is published on another track", "no claim on that sample", lambda log: log.say(44, "publish 2 0 @", claim=39)),
    ("what is no claim is published", "no claim on that sample", lambda log: log.say(44, "publish 2 0 @", claim=35)),
    ("a protected sample is passed as a clear one", "sample 0 of track 1 is protected", lambda log: log.say(37, "clear 1 0")),
    ("a clear sample is published", "sample 1 of track 1 is clear", lambda log: log.say(38, "publish 1 1 @", claim=34)),
    ("a clear sample is passed before the one that stands before it", "sample 1 is not the head of track 1", lambda log: log.move(38, before=37)),
    ("a clear sample is passed twice", "sample 2 is not the head of track 2", lambda log: log.double(57, before=58)),
    ("a clear sample is passed that is not fed", "sample 4 of track 1 is not fed", lambda log: log.move(76, before=74)),
    # waits
    ("a wait while a session has the key", "a session has a usable key for the head of track 1", lambda log: log.add("wait 1", before=68)),
    ("a wait though a second session has the key", "a session has a usable key for the head of track 1", lambda log: log.add("wait 1", before=34)),
    ("a wait with a live claim on the head", "a live claim is on the head of track 1", lambda log: log.add("wait 1", before=21)),
    ("a wait of a track that waits", "track 1 waits already", lambda log: log.double(58, before=60)),
    ("a wait of a track that has no sample left", "sample 3 of track 1 is not fed", lambda log: log.add("wait 1", before=51)),
    ("a wait of a track whose head is clear", "sample 2 of track 2 is clear", lambda log: log.move(60, before=57)),
    # the script's lines
    ("a line of a lane twice", "line 11 is not the next of lane 2, which is none", lambda log: log.double(35, before=36)),
    ("two lines of a lane change places", "line 11 is not the next of lane 2, which is 9", lambda log: log.move(35, before=27)),
    ("a line that is left out", "line 4 is not the next of lane 0, which is 3", lambda log: log.drop(2)),
    ("the last line of a lane is left out", "an implied settle comes before line 11", without_the_last_call),
    ("a line on another lane", "line 10 is not the next of lane 4, which is none", lambda log: log.say(10, "call 4 10")),
    ("a lane that is not there", "lane 8", lambda log: log.say(10, "call 8 10")),
    ("a feed line as a call", "line 12 is a feed", lambda log: log.say(19, "call 0 12")),
    ("a call as a settle", "line 7 is a update", lambda log: log.say(13, "settle 7")),
    ("a settle line as a feed", "line 8 is a settle", lambda log: log.say(18, "feed 8 1")),
    ("a call of line 0", "line 0 is not the next of lane 5", lambda log: log.say(10, "call 5 0")),
    ("a moment that the line does not have", "the moment of line 16 is 1000", lambda log: log.say(52, "tick 16 1001")),
    ("a fragment before its turn", "fragment 2 is not the next, which is 1", lambda log: log.say(19, "feed 12 2")),
    ("a feed without a fragment while one is left", "fragment - is not the next, which is 1", lambda log: log.say(19, "feed 12 -")),
    ("an implied settle before the last line", "an implied settle comes before line 17", lambda log: log.say(62, "settle 0")),
    ("an implied feed before the implied settle", "an implied feed comes before the implied settle", lambda log: log.say(74, "feed 0 3")),
    ("an implied settle twice", "an implied settle comes before the implied feed", lambda log: log.double(74, before=75)),
    ("an implied settle too many", "an implied settle comes before nothing", lambda log: log.blocks.append(log.at(77).copy())),
    # effects
    ("a promise line is missing", "'promise 3 resolved' is missing", lambda log: log.at(7).effects.clear()),
    ("a promise is settled twice", "'promise 6 resolved' is no effect of this entry", lambda log: log.at(13).effects.append("  promise 6 resolved")),
    ("a promise is rejected that is resolved", "stands for 'promise 3 resolved'", say_effect(7, 0, "promise 3 rejected TypeError")),
    ("statuses in another order", f"stands for 'statuses 2 {I1}=usable {I2}=usable'", say_effect(30, 0, f"statuses 2 {I2}=usable {I1}=usable")),
    ("a status of before the expiry", f"stands for 'statuses 2 {I1}=expired", say_effect(54, 0, f"statuses 2 {I1}=usable {I2}=usable")),
    ("a session that is closed untold", "stands for 'closed 1 closed-by-application'", lambda log: log.at(24).effects.pop(1)),
    ("a session that is closed for the other reason", "stands for 'closed 1 closed-by-application'", say_effect(24, 1, "closed 1 resource-evicted")),
    ("a session that is closed for no reason", "'closed 1' stands for 'closed 1 closed-by-application'", say_effect(24, 1, "closed 1")),
    ("a session that is closed twice", "'closed 1 closed-by-application' stands for 'promise 7 resolved'", lambda log: log.at(24).effects.insert(2, "  closed 1 closed-by-application")),
    ("effects in another order", "'promise 7 resolved' stands for 'statuses 1'", lambda log: log.at(24).effects.reverse()),
    ("an event that is not fired", "'event waitingforkey 1' is missing", lambda log: log.at(59).effects.clear()),
    ("an event of another track", "stands for 'event waitingforkey 1'", say_effect(59, 0, "event waitingforkey 2")),
    ("initialization data that is not the fragment's", "stands for 'event encrypted keyids 7b", say_effect(53, 0, "event encrypted keyids -")),
    ("a request of other key ids", 'stands for \'event message 1 1 license-request {"kids":["AAEC', say_effect(9, 0, 'event message 1 1 license-request {"kids":["EBESExQVFhcYGRobHB0eHw"],"type":"temporary"}')),
    # the end
    ("the log without its last entry", "the implied settle is missing", lambda log: log.drop(77)),
    ("the log without its implied entries", "the implied settle is missing", lambda log: log.drop(74, 75, 76, 77)),
    ("the log without the last fragment", "the implied feed is missing", lambda log: log.drop(75, 76, 77)),
    ("the log without its last line", "line 18 of lane 0 has no entry", lambda log: [log.drop(place) for place in range(63, 78)]),
]


def evicted_in_between(log):
    """The claim of worker 2 is delivered before its session is evicted, and published after that."""
    log.move(36, before=35)
    log.say(36, "deliver @ taken")
    log.add("publish 1 1 @", before=37, claim=28)


EVICTIONS = [
    ("the play itself", None, lambda log: None),
    ("a lost claim is delivered when its session is closed", None, lambda log: log.move(36, before=48)),
    ("the second eviction between the jobs", None, lambda log: log.move(38, before=40)),
    ("the second eviction when the session is closed", None, lambda log: log.move(38, before=42)),
    # keys that are usable later
    ("a claim before the start of the key", "no session has a usable key of that id", lambda log: log.add(f"claim 1 1 0 1 {I1}", before=18)),
    ("a claim under the evicted session when another one's key has started", "the first session with a usable key is 2", lambda log: log.say(61, f"claim 0 1 1 1 {I1}")),
    ("a claim at the start of the key while its track waits", "track 1 waits", lambda log: log.move(27, before=24)),
    ("a wait of a track that goes on since the start is reached", "a session has a usable key for the head of track 1", lambda log: log.add("wait 1", before=27)),
    ("a start that is reached without a report", "track 1 waits", lambda log: log.drop(24, 25, 26)),
    ("a report of a moment before the start", "no task is queued", lambda log: log.add("task", before=57, effects=[f"  statuses 2 {I1}=usable-in-future {I2}=usable-in-future"])),
    ("a settle while the report of a start is queued", "a settle, but a task is queued", lambda log: log.move(70, before=58)),
    ("a key that is usable before its start", f"stands for 'statuses 1 {I1}=usable-in-future'", say_effect(15, 0, f"statuses 1 {I1}=usable")),
    ("a key that is usable later at its very start", f"stands for 'statuses 1 {I1}=usable'", say_effect(24, 0, f"statuses 1 {I1}=usable-in-future")),
    ("a key that is expired before its start", f"stands for 'statuses 2 {I1}=usable-in-future", say_effect(51, 0, f"statuses 2 {I1}=expired {I2}=expired")),
    ("a claim is taken whose key an update put off", "the claim of entry 72 is not live", lambda log: log.say(75, "deliver @ taken")),
    ("a claim under a key that an update put off", "no session has a usable key of that id", lambda log: log.move(72, before=75)),
    # evictions
    ("a claim is taken whose session was evicted", "the claim of entry 28 is not live", lambda log: log.say(36, "deliver @ taken")),
    ("a claim is published whose session was evicted in between", "the claim of entry 28 is not live", evicted_in_between),
    ("a claim under an evicted session", "no session has a usable key of that id", lambda log: log.add(f"claim 1 1 1 1 {I1}", before=36)),
    ("a live claim is stale before the eviction", "the claim of entry 28 is live", lambda log: log.move(36, before=35)),
    ("an eviction that closes at once", "'statuses 1' is no effect of this entry", lambda log: log.at(35).effects.extend(log.at(41).effects)),
    ("an eviction without its last report", "stands for 'statuses 1'", lambda log: log.drop(41)),
    ("a settle before an eviction is told", "a settle, but a task is queued", lambda log: log.move(48, before=41)),
    ("an evicted session that is closed untold", "'closed 1 resource-evicted' is missing", lambda log: log.at(41).effects.pop(1)),
    ("an evicted session that is closed by the application", "stands for 'closed 1 resource-evicted'", say_effect(41, 1, "closed 1 closed-by-application")),
    ("an evicted session that is closed twice", "'closed 1 resource-evicted' is no effect of this entry", lambda log: log.at(41).effects.append("  closed 1 resource-evicted")),
    ("an evicted session that is closed once more by the second eviction", "'statuses 1' stands for 'promise 6 rejected InvalidStateError'", lambda log: log.double(41, before=42)),
    ("an evicted session that is closed once more by its `close`", "stands for 'event keystatuseschange 1'", lambda log: log.add("task", before=44, effects=["  statuses 1", "  closed 1 closed-by-application"])),
    ("an eviction of nobody that closes a session", "'closed 2 resource-evicted' is no effect of this entry", lambda log: log.at(55).effects.append("  closed 2 resource-evicted")),
    ("an update of an evicted session that is resolved", "stands for 'promise 6 rejected InvalidStateError'", say_effect(42, 0, "promise 6 resolved")),
    ("a removal of an evicted session that is resolved", "stands for 'promise 7 rejected InvalidStateError'", say_effect(43, 0, "promise 7 resolved")),
    ("a removal of an evicted session that is rejected by another name", "stands for 'promise 7 rejected InvalidStateError'", say_effect(43, 0, "promise 7 rejected TypeError")),
    ("a close of an evicted session that is rejected", "stands for 'promise 8 resolved'", say_effect(37, 0, "promise 8 rejected InvalidStateError")),
    ("a removal before the eviction that is called behind it", "'promise 7 rejected InvalidStateError' is missing", lambda log: log.move(34, before=36)),
    ("an eviction that is left out", "line 15 is not the next of lane 0, which is 13", lambda log: (log.drop(35, 36, 37))),
    ("an eviction twice", "line 13 is not the next of lane 0, which is 14", lambda log: log.double(35, before=36)),
    ("an eviction as a call", "line 13 is a evict", lambda log: log.say(35, "call 0 13")),
    ("a close as an eviction", "line 14 is a close", lambda log: log.say(37, "evict 14")),
    ("an eviction by another lane", "line 12 is not the next of lane 0, which is 13", lambda log: log.say(34, "evict 12")),
    ("an implied eviction", "line 0 is not the next of lane 0", lambda log: log.say(38, "evict 0")),
]

# Legal plays, that are none of the core where it takes another claim, publication or wait first.
CHOICES = [
    ("the play itself, as one of the core", None, lambda log: None),
    ("a claim on the second track before that on the first", "the core takes claim 1 2 first", lambda log: log.move(40, before=39)),
    ("a claim of a later sample before that of the first", "the core takes claim 1 0 first", lambda log: log.move(22, before=20)),
    ("a publication on the second track before that on the first", "the core takes publish 1 2 39 first", lambda log: (log.move(43, before=42), log.move(44, before=42))),
    ("a wait of the second track before that of the first", "the core takes wait 1 first", lambda log: log.move(60, before=58)),
]


def once(text, before, after):
    bent = text.replace(before, after, 1)
    if bent == text:
        raise ValueError(f"{before!r} does not stand in the text")
    return bent


TEXTS = [
    ("no text at all", "line 2 of lane 0 has no entry", lambda text: ""),
    ("the last line without its line feed", "the last line has no line feed", lambda text: text[:-1]),
    ("an empty line", "is no entry 12", lambda text: once(text, "\n12 ", "\n\n12 ")),
    ("a place that is left out", "is no entry 12", lambda text: once(text, "\n12 settle 6\n", "\n13 settle 6\n")),
    ("a place with a leading zero", "is no entry 12", lambda text: once(text, "\n12 settle", "\n012 settle")),
    ("a number with a leading zero", "is no entry 12", lambda text: once(text, "settle 6", "settle 06")),
    ("a space at the end", "is no entry 12", lambda text: once(text, "settle 6", "settle 6 ")),
    ("two spaces between words", "is no entry 12", lambda text: once(text, "settle 6", "settle  6")),
    ("a key id in capitals", "is no entry 20", lambda text: once(text, f"claim 2 1 0 1 {I1}", f"claim 2 1 0 1 {I1.upper()}")),
    ("an entry of no known verb", "is no entry 12", lambda text: once(text, "settle 6", "rest 6")),
    ("a verdict that is none", "is no entry 26", lambda text: once(text, "20 stale", "20 late")),
    ("an effect with one space", "'closed 1 closed-by-application' is missing", lambda text: once(text, "  closed 1", " closed 1")),
    ("an effect with three spaces", "stands for 'closed 1 closed-by-application'", lambda text: once(text, "  closed 1", "   closed 1")),
]

TEXTS_OF_EVICTIONS = [
    ("an eviction that names its session", "is no entry 35", lambda text: once(text, "evict 13", "evict 13 a")),
    ("an eviction without its line", "is no entry 35", lambda text: once(text, "evict 13", "evict")),
    ("a reason in capitals", "stands for 'closed 1 resource-evicted'", lambda text: once(text, "resource-evicted", "Resource-Evicted")),
]


class Play:
    """A play of checks/bent, with the log of two workers."""

    def __init__(self, name):
        folder = FOLDER / name
        self.script = read_script((folder / "script").read_bytes())
        self.media = read_media((folder / "media").read_bytes())
        self.log = (folder / "log").read_text()
        self.tracks = {id: bytes.fromhex((folder / f"track.{id}.hex").read_text()) for id in self.media.tracks}
        self.summary, self.workers, self.is_of_the_core = (folder / "summary").read_bytes(), 2, False


def changed(data, place):
    return data[:place] + bytes([data[place] ^ 1]) + data[place + 1 :]


def with_track(play, data):
    play.tracks[1] = data


FILES = [
    ("the first byte of a track is changed", "sample 0 of track 1, at byte 0", lambda play: with_track(play, changed(play.tracks[1], 0))),
    ("a byte of a clear sample is changed", "sample 1 of track 1, at byte 16", lambda play: with_track(play, changed(play.tracks[1], 17))),
    ("the last byte of a track is changed", "sample 4 of track 1, at byte 69", lambda play: with_track(play, changed(play.tracks[1], 69))),
    ("a track is a byte short", "sample 4 of track 1, at byte 69", lambda play: with_track(play, play.tracks[1][:-1])),
    ("a track is a byte too long", "the file of track 1 has 1 bytes more", lambda play: with_track(play, play.tracks[1] + b"\0")),
    ("two samples of a track change places", "sample 0 of track 1, at byte 0", lambda play: with_track(play, play.tracks[1][16:18] + play.tracks[1][:16] + play.tracks[1][18:])),
    ("a track is the encrypted bytes", "sample 0 of track 1, at byte 0", lambda play: with_track(play, b"".join(it.data for fragment in play.media.fragments for id, it in fragment.samples if id == 1))),
    ("a track has no file", "track 2 has no file", lambda play: play.tracks.pop(2)),
    ("the summary tells an entry less", "Summary:", lambda play: setattr(play, "summary", play.summary.replace(b"entries 77", b"entries 76"))),
    ("the summary tells a rejected promise", "Summary:", lambda play: setattr(play, "summary", play.summary.replace(b"10 rejected 0", b"9 rejected 1"))),
    ("the summary tells that a track waits", "Summary:", lambda play: setattr(play, "summary", play.summary.replace(b"waiting no", b"waiting yes"))),
    ("one worker", "there is no worker 2", lambda play: setattr(play, "workers", 1)),
    ("four workers", None, lambda play: setattr(play, "workers", 4)),
]


def waits(id, told, bent):
    return lambda play: setattr(play, "summary", once(play.summary, f"track {id} samples {told}\n".encode(), f"track {id} samples {bent}\n".encode()))


FILES_OF_EVICTIONS = [
    ("the play itself with its summary", None, lambda play: None),
    ("a track whose key comes later waits as if none came", "Summary:", waits(1, "3 bytes 67 waiting later", "3 bytes 67 waiting yes")),
    ("a track whose key comes later does not wait", "Summary:", waits(1, "3 bytes 67 waiting later", "3 bytes 67 waiting no")),
    ("a track for which no key comes waits for a later one", "Summary:", waits(2, "1 bytes 16 waiting yes", "1 bytes 16 waiting later")),
]


def past_the_window():
    """A play of 18 samples, whose first claim is one of the 17th."""
    play = Play("three_lanes")
    play.script = [it for it in play.script if it.number < 9]
    play.media = Media([1], [Fragment([], play.media.fragments[0].samples[:1] * 18)])
    play.log = once(alone_log(play.script, play.media).decode(), "claim 0 1 0 1", "claim 0 1 16 1")
    return play


def bent_plays():
    """Each row's name and words with its play."""
    yield "a claim past the window", "sample 16 is outside the window of track 1, which begins at 0", past_the_window()
    for folder, is_of_the_core, rows in (("three_lanes", False, LOGS), ("three_lanes", True, CHOICES), ("evictions", False, EVICTIONS)):
        for name, words, bend in rows:
            play = Play(folder)
            log = Log(play.log)
            bend(log)
            play.log, play.summary, play.is_of_the_core = log.text(), None, is_of_the_core
            yield name, words, play
    for folder, rows in (("three_lanes", TEXTS), ("evictions", TEXTS_OF_EVICTIONS)):
        for name, words, bend in rows:
            play = Play(folder)
            play.log = bend(play.log)
            yield name, words, play
    for folder, rows in (("three_lanes", FILES), ("evictions", FILES_OF_EVICTIONS)):
        for name, words, bend in rows:
            play = Play(folder)
            bend(play)
            yield name, words, play


def faults():
    """How many rows there are, and the rows that the checker does not answer as it must, in words."""
    rows, found = 0, []
    for name, words, play in bent_plays():
        rows += 1
        try:
            history.check(play.script, play.media, play.log.encode(), play.tracks, play.summary, play.workers, play.is_of_the_core)
            told, is_right = "it is taken", words is None
        except history.Wrong as wrong:
            told, is_right = str(wrong), words is not None and words in str(wrong)
        if not is_right:
            found.append(f"{name}: {told}; it should be {'taken' if words is None else f'refused with {words!r}'}")
    return rows, found
