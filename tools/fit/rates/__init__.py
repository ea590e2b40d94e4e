"""Rates by a capture's clock: `limit`, `quota`, `ct count` and sets that rules add to, replayed outside of nftrun, and
written for it as marks of records (docs/FIT.md, "Rates").

`terms` reads what a statement asks, `buckets` and `elements` are what Linux keeps of it, `known` the connections of the
run, `subjects` finds the statements of a ruleset, `replay` runs the ruleset and these by turns until both agree, and
`aliases` and `marked` write the marks: into the fitted ruleset, the box file and the capture.
"""
