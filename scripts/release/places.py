"""Where things are: the top of the repository, and the program that scripts/build makes."""
import os
from pathlib import Path

TOP = Path(__file__).resolve().parent.parent.parent
CACHE = Path(os.environ.get("XDG_CACHE_HOME") or Path.home() / ".cache")
BUILT = Path(os.environ.get("NFTRUN_BUILD") or CACHE / "nftrun-build") / "crates/nftrun/out/nftrun"
