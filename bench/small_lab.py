"""Two interfaces and a ruleset that looks at connections: what measurements of connections run over."""
from __future__ import annotations

import pathlib
import sys

# the toolbox, on which generators of captures stand
sys.path[:0] = [str(pathlib.Path(__file__).resolve().parent.parent / "tools")]

SERVER = 0xC6336407
BOX = """interface 2 lan 10.0.0.1/8
interface 3 wan 203.0.113.1/24
route 0.0.0.0/0 wan
default lan
"""
RULES = """table ip t {
	chain forward {
		type filter hook forward priority filter; policy accept;
		ct state established,related accept
		counter
	}
}
"""
RUN = ("run", "rules", "box", "in.pcap", "/dev/null")


def lay_out(folder: pathlib.Path) -> None:
    """Writes the ruleset and the box file."""
    (folder / "rules").write_text(RULES, encoding="ascii")
    (folder / "box").write_text(BOX, encoding="ascii")
