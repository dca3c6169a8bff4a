"""The kernel's calls in words: their names, arguments and answers (docs/KERNEL.md, "Kernel calls")."""

from __future__ import annotations

from typing import Dict, NamedTuple, Optional, Sequence, Tuple

CODE, VALUE, FIRST_ARGUMENT = 2, 3, 4  # registers
ANY = 0xFFFFFFFF
(YIELD, PUT, EXIT, ALLOC, FREE, RECAP, BIND, UNBIND, CONTEXT, ACCEPT, TRANSFER, TAKE, DROP, QUERY, CLAIM, UNCLAIM, HANDLER, LINE, BACKUP,
 SEND, OWN_NUMBER, CLOCK) = range(22)
# The codes of refusals, by their numbers, and what all answers are called.
(NO_PAGE, TAKEN, NONE_FREE, NOT_OWNER, NO_RIGHT, BAD_VPN, GUARANTEED, NO_ENV, NOT_ACCEPTED, NO_SLICE, SLOT_TAKEN, NOT_HOLDER, BAD_FILTER, OVERLAP,
 NO_FILTER, BAD_HANDLER, LINE_TAKEN, CONSOLE_FULL, FULL, BAD_CALL, BAD_POINTER, AGAIN) = range(1, 23)
ANSWERS = ("granted NoPage Taken NoneFree NotOwner NoRight BadVpn Guaranteed NoEnv NotAccepted NoSlice SlotTaken NotHolder BadFilter Overlap "
           "NoFilter BadHandler LineTaken ConsoleFull Full BadCall BadPointer Again").split()
# How an argument is shown: a number, an address, or -1 where it names nobody or any.
NUMBER, ADDRESS, CHOICE = range(3)
LARGEST_DECIMAL = 65_535
KINDS = {"address": ADDRESS, "words": ADDRESS, "mask": ADDRESS, "vpn": ADDRESS, "env": CHOICE, "any page": CHOICE}


class Call(NamedTuple):
    """A call's name, and what its arguments are, from $4 on."""

    name: str
    arguments: Tuple[str, ...] = ()


CALLS: Dict[int, Call] = {
    YIELD: Call("yield", ("env",)), PUT: Call("put", ("address", "length")), EXIT: Call("exit", ("code",)),
    ALLOC: Call("alloc", ("any page", "words", "words", "words", "words")), FREE: Call("free", ("page",)),
    RECAP: Call("recap", ("page", "words", "words", "words", "words")),
    BIND: Call("bind", ("vpn", "page", "writable", "words", "words")), UNBIND: Call("unbind", ("vpn",)),
    CONTEXT: Call("context", ("kind", "address")), ACCEPT: Call("accept", ("mask",)), TRANSFER: Call("transfer", ("env", "kind")),
    TAKE: Call("take", ("slot",)), DROP: Call("drop", ("slot",)), QUERY: Call("query", ("question", "which")),
    CLAIM: Call("claim", ("address", "atoms", "page")), UNCLAIM: Call("unclaim", ("claim",)),
    HANDLER: Call("handler", ("claim", "address", "length")), LINE: Call("line", ("line", "taken")), BACKUP: Call("backup", ("page",)),
    SEND: Call("send", ("address", "length")), OWN_NUMBER: Call("self"), CLOCK: Call("clock"),
}


def argument(kind: str, value: Optional[int]) -> str:
    """An argument as it is shown; `?` where it isn't known."""
    if value is None:
        return "?"
    how = KINDS.get(kind, NUMBER)
    if how == CHOICE and value == ANY:
        return "-1"
    is_hexadecimal = value > 9 if how == ADDRESS else value > LARGEST_DECIMAL
    return f"0x{value:x}" if is_hexadecimal else str(value)


def asked(registers: Sequence[Optional[int]]) -> str:
    """What a SYSCALL asks, by the registers before it: `claim(0x10000000, 1, 7)`."""
    number = registers[CODE]
    if number is None:
        return "call ?"
    call = CALLS.get(number)
    if call is None:
        return f"call {number}"
    shown = [argument(kind, registers[FIRST_ARGUMENT + place]) for place, kind in enumerate(call.arguments)]
    return f"{call.name}({', '.join(shown)})"


def answer_name(code: Optional[int]) -> str:
    """The name of an answer's code."""
    return ANSWERS[code] if code is not None and code < len(ANSWERS) else "?"


def answered(registers: Sequence[Optional[int]]) -> str:
    """What a call was answered, by the registers after it: the value of a granted one, or the refusal's name and code."""
    code, value = registers[CODE], registers[VALUE]
    if code == 0:
        return "?" if value is None else f"{value}" if value < 1 << 31 else f"0x{value:08x}"
    more = f", value {value}" if value else ""
    return f"{answer_name(code)} ({'?' if code is None else code}){more}"
