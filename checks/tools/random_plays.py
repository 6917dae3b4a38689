"""Scripts and sample lists made from a seed: several lanes, sessions that come, go and are evicted, keys that are replaced, put off,
released and expire."""
import random

from key_texts import base64url, json_text

SYSTEM = "1077efecc0b24d02ace33c1e52e2fb4b"
ACCESS = '[{"videoCapabilities":[{"contentType":"video/mp4; codecs=\\"avc1.42E01E\\""}]}]'


class Maker:
    def __init__(self, seed):
        self.random = random.Random(seed)
        self.is_paced = seed % 5 == 0  # lane 0 alone, a settle behind each line, and one key for each id
        self.kids = [self.random.randbytes(length) for length in self.random.choices((16, 16, 16, 1, 20), k=4)]
        self.keys = {kid: [self.random.randbytes(16) for _ in range(1 if self.is_paced else 2)] for kid in self.kids}
        self.labels, self.moment, self.last_call = [], 0, "certificate text:"

    # The media

    def sample(self, id, kids):
        size = self.random.choice((0, 5, 16, 32, 47, 64, 200, 500, self.random.randrange(1, 3000)))
        data = self.random.randbytes(size).hex() or "-"
        scheme = self.random.choice(("clear", "cenc", "cenc", "cbcs", "cbcs"))
        if scheme == "clear":
            return f"sample {id} clear {data}"
        clear = self.random.randrange(0, size + 1)
        middle = self.random.randrange(0, size - clear + 1)
        subs = self.random.choice(("-", f"{clear}+{size - clear}", f"{clear}+{middle},{size - clear - middle}+0", f"0+{clear},0+{size - clear}"))
        iv = self.random.randbytes(self.random.choice((8, 16)) if scheme == "cenc" else 16).hex()
        pattern = "" if scheme == "cenc" else self.random.choice(("0:0 ", "1:9 ", "2:1 ", "1:0 "))
        return f"sample {id} {scheme} {self.random.choice(kids).hex()} {iv} {pattern}{subs} {data}"

    def media(self):
        tracks = self.random.sample((1, 2, 7, 4294967295), self.random.choice((1, 2, 2, 3)))
        lines = ["SMPL 1", *(f"track {id}" for id in tracks)]
        fragments = self.random.randrange(2, 6)
        for fragment in range(fragments):
            lines.append("fragment")
            if self.random.random() < 0.3:
                lines.append(f"init keyids {json_text({'kids': [base64url(self.kids[0])]}).encode().hex()}")
            # an id that no session gets, in the last fragment of some
            kids = self.kids[:3] if fragment + 1 < fragments or self.random.random() < 0.7 else self.kids
            lines += [self.sample(self.random.choice(tracks), kids) for _ in range(self.random.choice((0, 5, 20, 40)))]
        return "".join(f"{it}\n" for it in lines).encode()

    # The script

    def key_set(self):
        kids = self.random.sample(self.kids[:3], self.random.choice((1, 2, 3, 3, 3, 3)))
        keys = [{"kty": "oct", "kid": base64url(kid), "k": base64url(self.random.choice(self.keys[kid]))} for kid in kids]
        expires = {"expires": self.random.randrange(0, 1500)} if self.random.random() < 0.3 else {}
        start = {"from": self.moment + self.random.randrange(0, 800)} if self.random.random() < 0.2 else {}
        return json_text({"keys": keys, "type": "temporary", **expires, **start})

    def request(self, label):
        kids = [kid for kid in self.kids if len(kid) == 16][:2]
        pssh = f"{32 + 4 + 16 * len(kids) :08x}7073736801000000{SYSTEM}{len(kids):08x}{b''.join(kids).hex()}00000000"
        keyids = "text:" + json_text({"kids": [base64url(it) for it in self.kids]})
        if self.random.random() < 0.1:
            return f"request {label} " + self.random.choice(("keyids text:", 'keyids text:{"kids":[]}', f"webm {keyids}", f"cenc {keyids}", f"- {keyids}"))
        return f"request {label} cenc hex:{pssh}" if kids and self.random.random() < 0.3 else f"request {label} keyids {keyids}"

    def create(self):
        self.labels.append(f"s{len(self.labels)}")
        return f"create {self.labels[-1]} {self.random.choice(('temporary',) * 14 + ('persistent-license',))}"

    def update(self):
        data = self.random.choice((*[self.key_set()] * 12, "x", ""))
        return f"update {self.random.choice(self.labels)} text:{data}"

    def call(self):
        verb = self.random.choice(("update",) * 8 + ("certificate", "close", "remove", "access", "nobody", "request", "again", "again"))
        label = self.random.choice(self.labels)
        if verb != "again":
            self.last_call = {
                "update": self.update(), "certificate": "certificate hex:00", "close": f"close {label}", "remove": f"remove {label}",
                "access": f"access {self.random.choice(('org.w3.clearkey', 'org.example', '-'))} text:{ACCESS}", "nobody": "close nobody",
                "request": self.request(label),
            }[verb]
        return self.last_call

    def opening(self):
        lines = []
        for _ in range(self.random.choice((1, 2, 3))):
            lines += [self.create(), self.request(self.labels[-1])]
        return lines

    def clock(self):
        self.moment += self.random.randrange(0, 700)
        return f"clock {self.moment}"

    def evict(self):
        return f"evict {self.random.choice((*self.labels * 3, 'nobody'))}"

    def delay(self, *counts):
        """Calls that change nothing: other lanes and workers go on while they are made."""
        return ["certificate hex:"] * (0 if self.is_paced else self.random.choice(counts))

    def burst(self):
        """Samples are fed, and while workers hold claims on them a session loses its keys."""
        label = self.random.choice(self.labels)
        change = self.random.choice((f"close {label}", f"remove {label}", f"evict {label}", self.clock(), f"update {label} text:{self.key_set()}"))
        return ["feed", *self.delay(0, 2, 10), change, *self.delay(0, 5), "settle", f"update {label} text:{self.key_set()}"]

    def lane_0(self):
        lines = [*self.opening(), "settle"]
        for label in self.labels[:]:
            lines += [f"update {label} text:{self.key_set()}"] * (self.random.random() < 0.8)
        lines += ["settle"] * (self.random.random() < 0.7)
        for _ in range(self.random.randrange(2, 8)):
            verb = self.random.choice(("feed", "settle", "clock", "evict", "call", "call", "burst", "burst", "burst", "burst"))
            made = {"clock": lambda: [self.clock()], "evict": lambda: [self.evict()], "call": lambda: [self.call()], "burst": self.burst}
            lines += made.get(verb, lambda verb=verb: [verb])()
        return lines

    def lane(self):
        lines = self.opening() if self.random.random() < 0.3 else []
        for _ in range(self.random.randrange(1, 8)):
            lines += [*self.delay(0, 0, 5, 20), self.call()]
        return lines

    def script(self):
        lanes = {0: self.lane_0()}
        if self.is_paced:
            lanes[0] = [it for line in lanes[0] for it in (line, "settle")]
        else:
            for lane in self.random.sample(range(1, 8), self.random.choice((0, 1, 2, 3, 7))):
                lanes[lane] = self.lane()
        lines = ["EMES 1", f"# {'a paced script' if self.is_paced else 'lanes ' + ', '.join(map(str, lanes))}"]
        left = [lane for lane, made in lanes.items() for _ in made]
        self.random.shuffle(left)
        for lane in left:
            lines.append(f"{lane} {lanes[lane].pop(0)}")
        return "".join(f"{it}\n" for it in lines).encode()


def made(seed):
    """The script and the media of a seed, and whether the script is paced."""
    maker = Maker(seed)
    media = maker.media()
    return maker.script(), media, maker.is_paced
