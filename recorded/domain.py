"""Which calls of the generator, and which answers of the Rust, are compared. See README.md."""

from document import TOP

# Functions that are private here. The generator draws their calls too, so that a seed gives the calls that are recorded.
LEFT_OUT = {"offset_width", "rot", "mix", "final_mix"}
LONGEST = 65_536


def ours(call):
    """Whether the program has this call."""
    return call != "" and call[0] != "#" and call.split(" ")[0] not in LEFT_OUT and len(call) <= LONGEST


def compared(answer):
    """Refusal 4 carries no values here."""
    return "err 4" if answer.startswith("err 4 ") else answer


def judged_alike(call, answer):
    """Whether documents 01 and 02 judge the addresses in a read or a plan as the Rust does."""
    if call.startswith("read "):
        return not reads_all_ones(call)
    return not answer.startswith("end ") or fits(call, answer)


def reads_all_ones(call):
    """Whether a read at an offset size O below 8 has 2^64−1 or 256^O−1 in a slot, or 256^O−1 as the FSSE address of a header that a
    slot names. The Rust skips 2^64−1 at every O. This library skips 256^O−1 "and no other address" (document 02, P2)."""
    _, offset_size, base, _, *slots, data = call.split(" ")
    offset_size, base, slots = int(offset_size), int(base), [int(slot) for slot in slots]
    if offset_size == 8:
        return False
    data = bytes.fromhex(data.strip("-"))
    headers = [data[base + slot :][: 74 + offset_size] for slot in slots]
    fields = [header[54 : 54 + offset_size] for header in headers if len(header) == 74 + offset_size and header[:4] == b"FSHD"]
    return TOP in slots or 256**offset_size - 1 in slots or b"\xff" * offset_size in fields


def fits(call, answer):
    """Whether a plan at offset size O has its sections below 256^O and its blocks below 256^O−1: else it is refusal 12 by documents 01 and
    02 (P2), and the Rust has no test."""
    limit = 256 ** int(call.split(" ")[1])
    rest = [int(word) for word in answer.split(" ")[17:]]
    while rest:
        sections = 4 + 2 * rest[3]
        if limit - 1 <= max(rest[:2]) or limit <= max(rest[4:sections:2]):
            return False
        rest = rest[sections:]
    return True
