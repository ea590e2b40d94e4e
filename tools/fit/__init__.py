"""The package behind fit-ruleset: it rewrites what nft(8) takes into the ruleset language of nftrun.

scanner      the tokens of nft(8)
tree         what expressions, statements and rules are
expressions  reads selectors, values, element lists and operators
statements   reads rules
commands     reads a file: definitions, includes, commands and blocks; what they leave loaded
profile      recognises the language of nftrun (docs/SPEC.md)
facts        words, types and what is known of selectors that nftrun doesn't read
assumptions  the guesses, and what may be chosen instead
changes      what was changed, and how much that matters
numbers      values as numbers and as text
network      the box file: what `fib` and the names of interfaces ask for
marks        which marks there may be
fitter       the whole ruleset; with tables, sets, chains and order
rules        one rule, statement by statement; the parts are matches, joined (keys), maps, writes, effects and
             translation, which share a draft
both         a guess tried both ways
command      the command line
"""
