"""What docs/FORMATS.md lists: limits and codecs. `checks/formats` compares them with the sources."""
import pathlib
import re

PAGE = (pathlib.Path(__file__).resolve().parents[2] / "docs/FORMATS.md").read_text(encoding="utf-8")
LIMITS = {name: int(value) for name, value in re.findall(r"^\| [^|]+ \| `(\w+)` \| (\d+) \|", PAGE, re.M)}
CODECS = {kind: re.findall(r"`([^`]+)`", row) for kind, row in re.findall(r"^\| (video|audio) \| (.*) \|$", PAGE, re.M)}
