"""What scripts/language writes into docs/SPEC.md, and what it tells of it."""
from __future__ import annotations

import sys
import unittest

from support import TOP

sys.path.insert(0, str(TOP / "scripts"))

from spec_tables import (  # noqa: E402
    SELECTOR_HEAD, WORDS_HEAD, Selector, Unread, ValueType, faults, selector_rows, shortest, with_table, word_rows,
)

SELECTORS = {"ip saddr": Selector("ipv4_addr", 32), "ip daddr": Selector("ipv4_addr", 32),
             "ip ttl": Selector(None, 8), "meta iif": Selector("iface_index", 32)}
TYPES = {"ipv4_addr": ValueType(32, True, True, {}), "ct_dir": ValueType(8, False, False, {"original": 0, "reply": 1})}
SPEC = f"""# Specification

### 1.3 Selectors

{SELECTOR_HEAD}
|---|---|
| `ip tos` | without a name, 8 |

{WORDS_HEAD}
|---|---|

### 1.4 What the profile leaves out

Else it is `E05`:

- commands: `define add`
- others: `ip6`

Also `counters`.

## 2. Rules

### 2.1 Selectors

| selector | value |
|---|---|
| `ip saddr`, `ip daddr` | as `ip header` |
| `ip ttl`; `iif` | a field |

Side by side: `meta mark`.
"""
SHORT = [shortest(name, ["iif"]) for name in SELECTORS]


class OfTables(unittest.TestCase):
    def test_rows(self) -> None:
        self.assertEqual(list(selector_rows(SELECTORS, ["iif"])), [
            "| `ip saddr`, `ip daddr` | ipv4_addr, 32 |", "| `ip ttl` | without a name, 8 |",
            "| `iif`, each also after `meta` | iface_index, 32 |"])
        self.assertEqual(list(word_rows(TYPES)), ["| ct_dir | original 0, reply 1 |"])

    def test_a_table_gets_other_rows(self) -> None:
        written = with_table(with_table(SPEC, SELECTOR_HEAD, ["| a | b |", "| c | d |"]), WORDS_HEAD, ["| e | f |"])
        self.assertEqual(written, SPEC.replace("| `ip tos` | without a name, 8 |", "| a | b |\n| c | d |").replace(
            f"{WORDS_HEAD}\n|---|---|\n", f"{WORDS_HEAD}\n|---|---|\n| e | f |\n"))
        with self.assertRaises(Unread):
            with_table(SPEC, "| another | head |", [])

    def test_the_same_words(self) -> None:
        self.assertEqual(list(faults(SPEC, SHORT, ["add", "define", "ip6"])), [])

    def test_other_words(self) -> None:
        spec = SPEC.replace("define add", "add add rt").replace("; `iif`", "; `ip tos`")
        self.assertEqual(list(faults(spec, SHORT, ["add", "define", "ip6"])), [
            "docs/SPEC.md, section 1.4: no `define`", "docs/SPEC.md, section 1.4: `rt`, which isn't one",
            "docs/SPEC.md, section 1.4: `add` twice", "docs/SPEC.md, section 2.1: no `iif`",
            "docs/SPEC.md, section 2.1: `ip tos`, which isn't one"])
        self.assertEqual(len(list(faults("", SHORT, ["add"]))), 5)


if __name__ == "__main__":
    unittest.main()
