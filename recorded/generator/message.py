"""Calls that write and parse the message."""

from document import TOP, info
from generator.draws import text


def messages(draws):
    strategy, persist = draws.between(0, 3), draws.between(0, 1)
    count = draws.pick([0, 1, 11, 12, 12, 12, 13])
    threshold, page, page_end, end = draws.number(), draws.number(), draws.number(65535), draws.number()
    addrs = some_addrs(draws, count)
    yield "msg_ser", strategy, persist, threshold, page, page_end, end, count, *addrs
    yield "msg_managers", threshold, page, end, 12, *some_addrs(draws, 12)
    offset_size, length_size = (draws.offset_size(), draws.offset_size()) if draws.chance(0.7) else (8, 8)
    yield "msg_parse", offset_size, length_size, text(any_message(draws, offset_size, length_size))
    yield "msg_parse", 8, 8, text(draws.changed(info(strategy, persist, threshold, page, page_end, end, addrs)))


def some_addrs(draws, count):
    return [draws.pick([draws.number(), TOP]) for _ in range(count)]


def any_message(draws, offset_size, length_size):
    """Most of version 1 and of a known strategy, with any number of addresses, sometimes cut."""
    version = draws.pick([1, 1, 1, 1, 1, 1, 1, 0, 2, 255])
    strategy = draws.pick([0, 1, 2, 3, 0, 1, 2, 3, 4, 255])
    persist = draws.pick([0, 1, 1, 1, 2, 255])
    fixed = 5 + 2 * length_size + offset_size
    data = bytes([version, strategy, persist]) + draws.bytes(fixed - 3)
    twelve = 12 * offset_size
    any_len = draws.between(0, 130)
    data += draws.bytes(draws.pick([0, 0, 1, offset_size - 1, offset_size, twelve, twelve - 1, twelve + 1, any_len]))
    if draws.chance(0.25):
        data = data[: draws.pick([0, 1, 2, 3, fixed - 1, fixed, draws.between(0, len(data))])]
    return data
