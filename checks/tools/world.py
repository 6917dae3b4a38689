"""The state of the CDM and the algorithms of sessions, as plain steps on lists: what a call, a job, a task, an eviction, a moment and a
feed do.

Written apart from the proved ones. Each step gives the lines of its effects, as the log has them.
"""
import collections

import access
import key_texts
from formats_page import LIMITS


class Session:
    def __init__(self, number):
        self.number, self.id = number, 0
        self.is_uninitialized, self.is_callable, self.is_closing, self.is_closed, self.is_evicted = True, False, False, False, False
        self.table, self.start, self.expiration = {}, None, None  # each known key id with its key, none where it is released

    def held_status(self, moment):
        """The status of the keys that it holds."""
        if self.expiration is not None and self.expiration <= moment:
            return "expired"
        if self.start is not None and moment < self.start:
            return "usable-in-future"
        return "usable"

    def statuses(self, moment):
        held = self.held_status(moment)
        return [(kid, "released" if key is None else held) for kid, key in sorted(self.table.items())]

    def held_key(self, kid, moment, status):
        """The key of that id where it has that status, and the session is not closed."""
        return None if self.is_closed or self.held_status(moment) != status else self.table.get(kid)

    def usable_key(self, kid, moment):
        return self.held_key(kid, moment, "usable")

    def clear(self):
        self.table, self.start, self.expiration = {}, None, None


class Track:
    def __init__(self):
        self.samples, self.published, self.is_waiting = [], 0, False

    def head(self):
        return self.samples[self.published] if self.published < len(self.samples) else None


class Reject(Exception):
    """A call is rejected in its own entry, by the name of the rejection."""


class World:
    def __init__(self, tracks):
        self.sessions, self.by_label = [], {}
        self.jobs, self.tasks = collections.deque(), collections.deque()
        self.promises, self.moment = [], 0  # each promise with how it was settled, none while it is pending
        self.tracks = {id: Track() for id in tracks}
        self.effects = []

    def pick(self, kid):
        """The first session with a usable key of that id, and the key; none where there is none."""
        for session in self.sessions:
            key = session.usable_key(kid, self.moment)
            if key is not None:
                return session, key
        return None

    def is_later(self, kid):
        """Whether a session has a key of that id whose start is still to come."""
        return any(it.held_key(kid, self.moment, "usable-in-future") is not None for it in self.sessions)

    def settle(self, promise, how, told=""):
        self.promises[promise - 1] = how
        self.effects.append(f"promise {promise} {how}{' ' if told else ''}{told}")

    def taken(self, step, *words):
        """Takes a step, and gives the lines of its effects."""
        self.effects = []
        step(*words)
        return self.effects

    # Calls

    def call(self, verb, words):
        self.promises.append(None)
        promise = len(self.promises)
        try:
            getattr(self, f"call_{verb}")(promise, *words)
        except Reject as fault:
            self.settle(promise, "rejected", str(fault))

    def session_of(self, label):
        if label not in self.by_label:
            raise Reject("UnknownLabel")
        return self.by_label[label]

    def open_session(self, label):
        """The session of a label, which is callable, and neither closing nor closed."""
        session = self.session_of(label)
        if session.is_closing or session.is_closed or not session.is_callable:
            raise Reject("InvalidStateError")
        return session

    def call_access(self, promise, name, data):
        try:
            self.settle(promise, "resolved", access.access(name, data))
        except access.Rejected as fault:
            raise Reject(str(fault)) from None

    def call_create(self, promise, label, kind):
        if kind != b"temporary":
            raise Reject("NotSupportedError")
        if len(self.sessions) == LIMITS["MAX_SESSIONS"]:
            raise Reject("QuotaExceededError")
        self.sessions.append(Session(len(self.sessions) + 1))
        self.by_label.setdefault(label, self.sessions[-1])
        self.settle(promise, "resolved")

    def call_request(self, promise, label, kind, data):
        session = self.session_of(label)
        if session.is_closing or session.is_closed or not session.is_uninitialized:
            raise Reject("InvalidStateError")
        session.is_uninitialized = False
        if not kind or not data:
            raise Reject("TypeError")
        if kind not in (b"cenc", b"keyids"):
            raise Reject("NotSupportedError")
        self.jobs.append((self.job_request, session, promise, kind, data))

    def call_update(self, promise, label, data):
        session = self.open_session(label)
        if not data:
            raise Reject("TypeError")
        self.jobs.append((self.job_update, session, promise, data))

    def call_close(self, promise, label):
        session = self.session_of(label)
        if session.is_closing or session.is_closed:
            self.settle(promise, "resolved")
            return
        if not session.is_callable:
            raise Reject("InvalidStateError")
        session.is_closing = True
        self.jobs.append((self.job_close, session, promise))

    def call_remove(self, promise, label):
        self.jobs.append((self.job_remove, self.open_session(label), promise))

    def call_certificate(self, promise, data):
        self.settle(promise, "resolved", "false")

    # An eviction

    def evict(self, label):
        """The session of the label ends without a call, where it is neither closing nor closed."""
        session = self.by_label.get(label)
        if session is None or session.is_closing or session.is_closed:
            return
        session.is_evicted = session.is_closing = True
        session.clear()
        self.tasks.append((self.task_evicted, session))

    # Jobs

    def job(self):
        step, session, promise, *words = self.jobs.popleft()
        if session.is_evicted:
            self.tasks.append((self.task_reject, promise, "InvalidStateError"))
        else:
            step(session, promise, *words)

    def job_request(self, session, promise, kind, data):
        try:
            kids = key_texts.kids_of(kind, data)
        except key_texts.Refused:
            self.tasks.append((self.task_reject, promise, "TypeError"))
            return
        if kids:
            self.tasks.append((self.task_request_done, session, promise, kids))
        else:
            self.tasks.append((self.task_reject, promise, "NotSupportedError"))

    def job_update(self, session, promise, data):
        try:
            keys, start, expires = key_texts.read_key_set(data)
        except key_texts.Refused:
            self.tasks.append((self.task_reject, promise, "TypeError"))
            return
        if len(session.table.keys() | {kid for kid, _ in keys}) > LIMITS["MAX_SESSION_KIDS"]:
            self.tasks.append((self.task_reject, promise, "QuotaExceededError"))
            return
        before = dict(session.table), session.statuses(self.moment)
        session.table.update(keys)
        session.start, session.expiration = start, expires
        changed = before != (session.table, session.statuses(self.moment))
        self.tasks.append((self.task_update_done, session, promise, changed))

    def job_close(self, session, promise):
        session.clear()
        self.tasks.append((self.task_close_done, session, promise))

    def job_remove(self, session, promise):
        session.table, session.start, session.expiration = dict.fromkeys(session.table), None, None
        self.tasks.append((self.task_remove_done, session, promise))

    # Tasks

    def task(self):
        step, *words = self.tasks.popleft()
        step(*words)

    def update_key_statuses(self, session):
        told = "".join(f" {kid.hex()}={status}" for kid, status in session.statuses(self.moment))
        self.effects.append(f"statuses {session.number}{told}")
        self.tasks.append((self.task_fire, f"keystatuseschange {session.number}"))
        self.tasks.append((self.task_resume,))

    def close(self, session, reason):
        """The last report of a session, and its `closed` promise, settled with a reason."""
        self.update_key_statuses(session)
        session.is_closed = True
        self.effects.append(f"closed {session.number} {reason}")

    def task_reject(self, promise, name):
        self.settle(promise, "rejected", name)

    def task_request_done(self, session, promise, kids):
        session.id = 1 + max(it.id for it in self.sessions)
        session.is_callable = True
        self.tasks.append((self.task_fire, f"message {session.number} {session.id} license-request {key_texts.request_text(kids)}"))
        self.settle(promise, "resolved")

    def task_update_done(self, session, promise, changed):
        if changed:
            self.update_key_statuses(session)
        self.settle(promise, "resolved")

    def task_close_done(self, session, promise):
        self.close(session, "closed-by-application")
        self.settle(promise, "resolved")

    def task_evicted(self, session):
        self.close(session, "resource-evicted")

    def task_remove_done(self, session, promise):
        self.update_key_statuses(session)
        self.settle(promise, "resolved")

    def task_report(self, session):
        if not session.is_closed:
            self.update_key_statuses(session)

    def task_fire(self, event):
        self.effects.append(f"event {event}")

    def task_resume(self):
        for track in self.tracks.values():
            if track.is_waiting and self.pick(track.head().protection.kid) is not None:
                track.is_waiting = False

    # The moment, a feed, a wait

    def tick(self, moment):
        before, self.moment = self.moment, moment
        for session in self.sessions:
            if not session.is_closed and session.statuses(before) != session.statuses(moment):
                self.tasks.append((self.task_report, session))

    def feed(self, fragment):
        for track, sample in fragment.samples:
            self.tracks[track].samples.append(sample)
        for kind, data in fragment.inits:
            self.tasks.append((self.task_fire, f"encrypted {kind} {data.hex() or '-'}"))

    def wait(self, id):
        self.tracks[id].is_waiting = True
        self.tasks.append((self.task_fire, f"waitingforkey {id}"))

    # Rest

    def unrested(self):
        """What keeps the CDM from rest, in words; none where it is at rest."""
        if self.jobs:
            return "a job is queued"
        if self.tasks:
            return "a task is queued"
        for id, track in self.tracks.items():
            head = track.head()
            if head is None:
                continue
            if not track.is_waiting:
                return f"track {id} has more to give"
            if self.pick(head.protection.kid) is not None:
                return f"track {id} waits though its head's key is there"
        return None
