"""The ports that a mapping may get, by a plain reading of docs/SPEC.md, section 7.4."""
from __future__ import annotations

import itertools
from typing import Callable, Iterator


def candidates(protocol: str, old: int, low: int, high: int) -> Iterator[int]:
    """The ports that an old one may become, of these, the best first: those that are as like it as any of these can be,
    from itself upward, then from the least."""
    likenesses: list[Callable[[int], bool]] = [lambda port: True]
    if protocol in ("udp", "tcp"):
        likenesses = [
            lambda port: port % 2 == old % 2 and (port < 1024) == (old < 1024),
            lambda port: port % 2 == old % 2,
            lambda port: True,
        ]
    else:
        low, high = (0, 65535) if protocol == "echo" else (0, 0)
    is_like = next(it for it in likenesses if any(map(it, range(low, high + 1))))
    upward = itertools.chain(range(max(low, old), high + 1), range(low, min(high + 1, old)))
    return filter(is_like, upward)
