"""Values as numbers, and as nftrun spells them."""
from __future__ import annotations

import socket
from ipaddress import IPv4Address
from typing import Mapping, Sequence

from toolbox.lexer import Kind

from .expressions import as_number, as_part
from .facts import MORE_PROTOCOLS, MORE_SERVICES, PROTOCOLS, SERVICES, TCP_FLAGS, WIDTHS, WORDS
from .tree import (
    Anything,
    Calculation,
    Element,
    Elements,
    Expression,
    Listed,
    NotFitted,
    One,
    Part,
    Prefix,
    Range,
    Value,
)

NAMED = ("ifname", "iface_index")
RANGED = ("ipv4_addr", "inet_service", "mark", "inet_proto", "icmp_type")  # types that have ranges
ORDERED = ("ipv4_addr", "inet_service", "mark")  # types that `<` and the like compare


def width_of(kind: str) -> int:
    return int(kind) if kind.isdigit() else WIDTHS.get(kind, 32)


def number_of(value: Value, kind: str, words: Mapping[str, int] | None = None) -> int | None:
    """The number of a value, or None where it has none that is known."""
    if value.kind is Kind.NUMBER:
        return as_number(value.text)
    if value.kind is Kind.ADDRESS:
        return int(address_of(value.text))
    if value.kind is Kind.STRING and words is not None:  # `iifgroup "default"`
        return words.get(value.text.strip('"'))
    if value.kind is not Kind.WORD:
        return None
    if words is not None or kind in WORDS and value.text in WORDS[kind]:
        return (WORDS[kind] if words is None else words).get(value.text)
    if kind == "inet_service":
        return service(value.text)
    if kind == "inet_proto":
        return protocol(value.text)
    return None


def address_of(text: str) -> IPv4Address:
    try:
        return IPv4Address(text)
    except ValueError:
        raise NotFitted(f"`{text}` is no address") from None


def range_of(part: Part, kind: str, words: Mapping[str, int] | None = None) -> tuple[int, int] | None:
    """The least and the greatest number that a part stands for, or None."""
    width = width_of(kind)
    if isinstance(part, Anything):
        return 0, 2**width - 1
    if isinstance(part, One):
        number = number_of(part.value, kind, words)
        return None if number is None else (number, number)
    if isinstance(part, Range):
        low, high = number_of(part.low, kind, words), number_of(part.high, kind, words)
        return None if low is None or high is None else (low, high)
    base = number_of(part.value, kind, words)
    if base is None or part.length > width:
        return None
    host = (1 << width - part.length) - 1
    return base & ~host, base | host


def service(word: str) -> int:
    known = SERVICES.get(word) or MORE_SERVICES.get(word)
    try:
        return known or socket.getservbyname(word)
    except OSError:
        raise NotFitted(f"`{word}` is no service that is known here") from None


def protocol(word: str) -> int:
    known = PROTOCOLS.get(word) or MORE_PROTOCOLS.get(word)
    try:
        return known or socket.getprotobyname(word)
    except OSError:
        raise NotFitted(f"`{word}` is no protocol that is known here") from None


def spell_number(number: int, kind: str) -> str:
    if kind == "ipv4_addr":
        return str(IPv4Address(number))
    return hex(number) if kind == "mark" else str(number)


def spell_value(value: Value, kind: str) -> str:
    if kind in NAMED:
        if value.kind is Kind.NUMBER and kind == "iface_index":
            return value.text
        return spell_name(value.text)
    if value.kind is Kind.NUMBER and kind == "ipv4_addr":
        return str(IPv4Address(as_number(fitting_number(value.text, kind))))
    if value.kind is Kind.NUMBER:
        return spell_bits(value.text, kind) if kind in ("ct_state", "ct_status") else fitting_number(value.text, kind)
    if value.kind is Kind.ADDRESS and kind == "ipv4_addr":
        return str(address_of(value.text))
    if value.kind is Kind.WORD and value.text in WORDS.get(kind, {}):
        return value.text
    if value.kind is Kind.WORD and kind == "inet_service":
        return str(service(value.text))
    if value.kind is Kind.WORD and kind == "inet_proto":
        return "ipv6-icmp" if value.text == "icmpv6" else str(protocol(value.text))
    raise NotFitted(f"`{value.text}` isn't a value of {kind}")


def fitting_number(text: str, kind: str) -> str:
    """A number as it is spelled, where it is one of a type."""
    if as_number(text) >> width_of(kind):
        raise NotFitted(f"`{text}` is too large for {type_text(kind)}")
    return text


def spell_bits(text: str, kind: str) -> str:
    """The word for a number of a type whose values nftrun takes as words alone."""
    words = bits_named(as_number(text), WORDS[kind])
    if len(words) != 1 or words[0] not in WORDS[kind]:
        raise NotFitted(f"`{text}` isn't a value of {kind} that nftrun has a word for")
    return words[0]


def type_text(kind: str) -> str:
    return f"{kind} bits" if kind.isdigit() else kind


def is_ordered(kind: str) -> bool:
    """Whether nftrun compares values of a type by `<` and the like."""
    return kind in ORDERED or kind.isdigit()


def range_for(operator: str, right: Part, kind: str) -> Range:
    """The range of the numbers for which an order holds, of a type that has ranges and no orders."""
    number = number_of(right.value, kind) if isinstance(right, One) else None
    if number is None or kind not in RANGED:
        raise NotFitted(f"`{operator}` with a value of {kind}")
    top = 2 ** width_of(kind) - 1
    ends = {"<": (0, number - 1), "<=": (0, number), ">": (number + 1, top), ">=": (number, top)}
    low, high = ends[operator]
    if not 0 <= low <= high <= top:
        raise NotFitted(f"no value of {kind} is `{operator} {number}`")
    return Range(Value(Kind.NUMBER, str(low)), Value(Kind.NUMBER, str(high)))


def spell_range(part: Range, kind: str) -> str:
    if kind not in RANGED and not kind.isdigit():
        raise NotFitted(f"a range of {kind}")
    found = range_of(part, kind)
    if found is not None and found[0] > found[1]:
        raise NotFitted(f"the range {part.low.text}-{part.high.text} has its ends reversed")
    return f"{spell_value(part.low, kind)}-{spell_value(part.high, kind)}"


def spell_name(text: str) -> str:
    """The name of an interface, quoted; `eth*` and `"eth"*` mean what `"eth*"` means."""
    name = text.replace('"', "")
    if not 0 < len(name.removesuffix("*")) <= 15 or "\\" in name or "\n" in name:
        raise NotFitted(f"`{name}` is no name of an interface")
    return f'"{name}"'


def spell_part(part: Part, kind: str) -> str:
    if isinstance(part, One):
        return spell_value(part.value, kind)
    if isinstance(part, Range):
        return spell_range(part, kind)
    if isinstance(part, Prefix) and kind == "ipv4_addr" and part.length <= 32:
        return f"{spell_value(part.value, kind)}/{part.length}"
    if kind in NAMED:
        raise NotFitted("a range of interfaces")
    found = range_of(part, kind)
    if found is None and isinstance(part, Prefix):
        raise NotFitted(f"`{part.value.text}/{part.length}` is no prefix of {type_text(kind)}")
    if found is None or kind not in RANGED and not kind.isdigit():
        raise NotFitted(f"a value that isn't of {type_text(kind)}")
    return f"{spell_number(found[0], kind)}-{spell_number(found[1], kind)}"


def name_of(part: Part) -> str | None:
    """The name of an interface without quotes, or None where the part is none."""
    return part.value.text.replace('"', "") if isinstance(part, One) else None


def holds(
    number: int, operator: str, right: Expression, kind: str, words: Mapping[str, int] | None = None
) -> bool | None:
    """Whether `number OPERATOR right` holds; None where `right` isn't known. Words None: those of the type."""
    if isinstance(right, Elements):
        return is_element(number, operator, right, kind, words)
    if isinstance(right, Calculation):
        right = constant(right)
    if isinstance(right, Listed):
        listed = Elements(tuple(Element((as_part(it),), None, ()) for it in right.items))
        return is_element(number, operator, listed, kind, words)
    if not isinstance(right, (One, Range, Prefix, Anything)):
        return None
    found = range_of(right, kind, words)
    if found is None:
        return None
    low, high = found
    orders = {"<": number < low, ">": number > high, "<=": number <= low, ">=": number >= low}
    if operator in orders:
        return orders[operator] if low == high else None
    return (low <= number <= high) == (operator not in ("!=", "!"))


def count_of(part: Part, kind: str) -> int:
    """How many numbers a part stands for; one where that isn't known."""
    ends = range_of(part, kind)
    return 1 if ends is None else ends[1] - ends[0] + 1


def share(operator: str, right: Expression, kind: str) -> float:
    """The share of all numbers of a type for which a match holds, from 0 to 1."""
    whole = 1 << width_of(kind)
    if isinstance(right, Listed):
        right = Elements(tuple(Element((as_part(it),), None, ()) for it in right.items))
    if isinstance(right, Elements):
        count = sum(count_of(it.key[0], kind) for it in right.items)
    elif not isinstance(right, (One, Range, Prefix, Anything)):
        count = 1
    elif operator in ("<", ">", "<=", ">="):
        ends = range_of(right, kind) or (0, 0)
        count = {"<": ends[0], "<=": ends[0] + 1, ">": whole - 1 - ends[1], ">=": whole - ends[1]}[operator]
        return count / whole
    else:
        count = count_of(right, kind)
    return (count if operator not in ("!=", "!") else whole - count) / whole


def usual_element(elements: Sequence[Element], kind: str) -> list[Element]:
    """Of the elements of a map the one that has more than half of all numbers, if there is one."""
    rest = [it for it in elements if isinstance(it.key[0], Anything)]
    named = [it for it in elements if it not in rest]
    wide = [it for it in named if share("", it.key[0], kind) > 0.5]
    return wide or (rest[:1] if sum(share("", it.key[0], kind) for it in named) < 0.5 else [])


def is_element(
    number: int, operator: str, elements: Elements, kind: str, words: Mapping[str, int] | None
) -> bool | None:
    """Whether the number is in a list, or isn't; None where what is listed isn't known."""
    found = []
    for it in elements.items:
        ends = range_of(it.key[0], kind, words)
        if ends is None:
            return None
        found.append(ends)
    return any(low <= number <= high for low, high in found) == (operator not in ("!=", "!"))


def calculated(operator: str, left: int, right: int) -> int:
    results = {
        "&": left & right,
        "|": left | right,
        "^": left ^ right,
        "<<": left << min(right, 64),
        ">>": left >> min(right, 64),
    }
    return results[operator] & 0xFFFFFFFF


def constant(it: Expression, words: Mapping[str, int] = TCP_FLAGS) -> One:
    """The number that constants joined by | ^ & make, as a part; flags of TCP by name or number."""
    if isinstance(it, Calculation):
        return number_part(calculated(it.operator, constant_number(it.left, words), constant_number(it.right, words)))
    if isinstance(it, Listed):
        bits = 0
        for item in it.items:
            bits |= constant_number(item, words)
        return number_part(bits)
    if isinstance(it, One) and it.value.kind is Kind.NUMBER:
        return it
    if isinstance(it, One) and it.value.kind is Kind.WORD and it.value.text in words:
        return number_part(words[it.value.text])
    raise NotFitted("a constant that isn't known")


def constant_number(it: Expression, words: Mapping[str, int] = TCP_FLAGS) -> int:
    return as_number(constant(it, words).value.text)


def number_part(number: int) -> One:
    return One(Value(Kind.NUMBER, hex(number)))


def bits_named(number: int, words: Mapping[str, int]) -> list[str]:
    """`fin | syn` for a number made of named bits, else the number."""
    names = [name for name, bit in words.items() if number & bit == bit]
    if not names or sum(words[name] for name in names) != number:
        return [hex(number)]
    return names
