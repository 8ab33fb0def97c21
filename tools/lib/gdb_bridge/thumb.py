"""How control goes through Thumb code of ARMv6-M: which instructions leave a range of addresses, and which lead to one.

ARMv6-M has no IT blocks, so a branch is conditional by itself alone. Each even address is read as if an instruction began there,
since data stands between instructions: what is told may be more than what can happen, never less."""

import struct
from dataclasses import dataclass
from typing import Sequence, Set, Tuple

ALIGNED = 0xFFFFFFFE


@dataclass(frozen=True)
class Exits:
    """How control leaves a range, if not by a fault."""

    targets: Set[int]           # addresses outside that an instruction in it names, and the one behind it
    indirect: Set[int]          # addresses of instructions in it whose target no code tells


def _halfwords(code: bytes) -> Tuple[int, ...]:
    return struct.unpack(f"<{len(code) // 2}H", code[:len(code) & ~1])


def _call_target(high: int, low: int, here: int):
    """Where a `bl` leads whose halfwords are these, or None where they are no `bl`."""
    if high >> 11 != 0b11110 or low >> 14 != 0b11 or not low & 0x1000:
        return None
    sign = high >> 10 & 1
    bit_23, bit_22 = 1 - (low >> 13 & 1 ^ sign), 1 - (low >> 11 & 1 ^ sign)
    offset = 2 * ((high & 0x3FF) << 11 | low & 0x7FF | bit_22 << 21 | bit_23 << 22) - (sign << 24)
    return (here + 4 + offset) & ALIGNED


def _target(halves: Sequence[int], index: int, base: int):
    """Where a branch or a call leads that begins at one of these halfwords, the first of which is at `base`, or None."""
    half, here = halves[index], base + 2 * index
    if half >> 12 == 0b1101 and half >> 8 & 15 < 14:
        return (here + 4 + 2 * ((half & 0xFF) - (half << 1 & 0x100))) & ALIGNED
    if half >> 11 == 0b11100:
        return (here + 4 + 2 * ((half & 0x3FF) - (half & 0x400))) & ALIGNED
    return _call_target(half, halves[index + 1], here) if index + 1 < len(halves) else None


def _is_indirect(half: int) -> bool:
    """Whether it is pop with pc, bx or blx, or add or mov to pc."""
    return half >> 8 in (0xBD, 0x47) or half >> 8 in (0x44, 0x46) and half & 0x87 == 0x87


def _begins_call(half: int) -> bool:
    return half >> 11 == 0b11110


def exits(code: bytes, base: int) -> Exits:
    """How control leaves this code, which is at `base`."""
    halves = _halfwords(code)
    end = base + len(code)
    found = Exits({end}, set())
    for index, half in enumerate(halves):
        target = _target(halves, index, base)
        if target is not None and not base <= target < end:
            found.targets.add(target)
        cut = _begins_call(half) and index + 1 == len(halves)
        if _is_indirect(half) or cut:
            found.indirect.add(base + 2 * index)
    return found


def leading_to(code: bytes, base: int, pc: int) -> Set[int]:
    """The addresses from which an instruction may have led to `pc`: itself, by a fault, those right before it, branches there, and
    those whose target no code tells."""
    halves = _halfwords(code)
    found = {pc, pc - 2, pc - 4}
    for index, half in enumerate(halves):
        if _target(halves, index, base) == pc or _is_indirect(half):
            found.add(base + 2 * index)
    return found


def called(code: bytes, base: int) -> Set[int]:
    """The addresses that a `bl` in this code leads to."""
    halves = _halfwords(code)
    found = {_call_target(high, low, base + 2 * index) for index, (high, low) in enumerate(zip(halves, halves[1:]))}
    return found - {None}
