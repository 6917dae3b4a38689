"""Plays scripts and media with the built program, and has the checker of histories look over what comes out."""
import pathlib
import shutil
import subprocess
import tempfile
from typing import NamedTuple

import history
from media_reader import read_media
from script_reader import read_script

PROGRAM = pathlib.Path(__file__).resolve().parents[2] / "crates/bittorgas/out/bittorgas"
WORKERS, DEFAULT_WORKERS = (0, 1, 2, 4, 16), 4
SECONDS = 120


class Failed(Exception):
    """A play that ends otherwise than it must, or whose history is wrong; in words."""


class Played(NamedTuple):
    log: str
    tracks: dict
    summary: str
    checker: history.Checker

    def promises(self):
        """How each promise was settled, by the lines of the log."""
        settled = {}
        for line in self.log.splitlines():
            if line.startswith("  promise "):
                number, how = line[len("  promise "):].split(" ", 1)
                settled[int(number)] = how
        return settled


def run(*words):
    try:
        return subprocess.run([PROGRAM, *words], capture_output=True, timeout=SECONDS)
    except subprocess.TimeoutExpired:
        raise Failed(f"{words[0]} does not end within {SECONDS} seconds") from None


def around(log, line):
    """The lines of a log near one of them."""
    lines = log.decode(errors="replace").split("\n")
    return "".join(f"\n  {'>' if n == line else ' '} {n}: {lines[n - 1][:200]}" for n in range(max(1, line - 6), min(len(lines), line + 3) + 1))


def check_files(script, media, prefix, workers, summary, parsed=None):
    """Checks the files of a play of the program: PREFIX.log, a file for each track, and the summary where it is given."""
    lines, samples = parsed or (read_script(script), read_media(media))
    log = pathlib.Path(f"{prefix}.log").read_bytes()
    files = {id: pathlib.Path(f"{prefix}.{id}") for id in samples.tracks}
    tracks = {id: path.read_bytes() for id, path in files.items() if path.exists()}
    try:
        checker = history.check(lines, samples, log, tracks, summary, workers, is_of_the_core=True)
    except history.Wrong as wrong:
        raise Failed(f"{wrong}{around(log, wrong.line) if wrong.line else ''}") from None
    return Played(log.decode(), tracks, "" if summary is None else summary.decode(), checker)


def play(script, media, workers, parsed=None):
    """Plays with a number of workers, or without the option where it is none, and checks what comes out. The files of a failed play stay."""
    option = [] if workers is None else ["--workers", str(workers)]
    folder = tempfile.mkdtemp()
    prefix = f"{folder}/out"
    for name, content in (("script", script), ("media", media)):
        pathlib.Path(f"{folder}/{name}").write_bytes(content)
    try:
        ran = run("play", f"{folder}/script", f"{folder}/media", prefix, *option)
        if ran.returncode != 0:
            raise Failed(f"the play ends with {ran.returncode}: {ran.stderr.decode().strip()}")
        pathlib.Path(f"{prefix}.summary").write_bytes(ran.stdout)
        played = check_files(script, media, prefix, DEFAULT_WORKERS if workers is None else workers, ran.stdout, parsed)
    except Failed as fault:
        raise Failed(f"{fault}\n  its files are {folder}/*") from None
    shutil.rmtree(folder)
    return played
