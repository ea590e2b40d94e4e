"""The page that nftrun page writes: what a ruleset makes of a capture, to look at."""
