"""Books whose header or contents are refused: 9 and 10. Each maker is given a sound book."""
import struct

from book import entries


def with_entry(book, at, entry):
    return book[:4 + 8 * at] + entry.laid() + book[12 + 8 * at:]


def moved(entry, by):
    return entry._replace(start=(entry.start + by) % 2**32)


# ---- 9

def bad_headers(book):
    """Wrong letters, edition, count."""
    for at, values in ((0, (0x50, 0, 0x4E, 0xD1)), (1, (0x4F, 0x51, 0, 0xCE)), (2, (0, 3, 4, 129, 255)), (3, (17, 18, 32, 144, 255))):
        for value in values:
            yield f"byte {at} is {value}", book[:at] + bytes([value]) + book[at + 1:]
    yield "letters the other way", b"\x4e\x51" + book[2:]


def short_books(book):
    for size in range(4):
        yield f"{size} bytes", book[:size]


# ---- 10

def cut_contents(book):
    """Contents too short, at every length."""
    for size in range(4, 4 + 8 * book[3]):
        yield f"contents cut at {size}", book[:size]


def bad_kinds(book):
    for at, entry in enumerate(entries(book)):
        for kind in (0, 3, 4, 129, 255):
            yield f"kind {kind} at {at}", with_entry(book, at, entry._replace(kind=kind))


def bad_starts(book):
    """A start that is off, by one either way or by much; nothing else changes."""
    for at, entry in enumerate(entries(book)):
        for by in (1, -1, 8, -4, 2**8, 2**16, 2**24, 2**31, -entry.start - 1, -entry.start):
            yield f"start off by {by} at {at}", with_entry(book, at, moved(entry, by))


def bad_lengths(book):
    """A length that is off; nothing else changes."""
    for at, entry in enumerate(entries(book)):
        for by in (1, -1, 3, 9, 256):
            if 0 <= entry.length + by < 65536:
                yield f"length off by {by} at {at}", with_entry(book, at, entry._replace(length=entry.length + by))
        yield f"length 65,535 at {at}", with_entry(book, at, entry._replace(length=65535))


def gaps(book):
    """A byte that belongs to no body, before body `at`; all starts from there on tell the truth."""
    for at, first in enumerate(entries(book)):
        changed = book[:first.start] + b"\0" + book[first.start:]
        for i, entry in enumerate(entries(book)):
            changed = with_entry(changed, i, moved(entry, 1 if i >= at else 0))
        yield f"gap before {at}", changed


def overlaps(book):
    """Body `at` starts on the last byte of the body before; all starts from there on tell the truth."""
    listed = entries(book)
    for at in range(1, len(listed)):
        if listed[at - 1].length:
            cut = listed[at].start
            changed = book[:cut - 1] + book[cut:]
            for i, entry in enumerate(listed):
                changed = with_entry(changed, i, moved(entry, -1 if i >= at else 0))
            yield f"overlap at {at}", changed


def into_contents(book):
    """The first body starts on the last byte of the contents."""
    if book[3]:
        changed = book[:-1]
        for i, entry in enumerate(entries(book)):
            changed = with_entry(changed, i, moved(entry, -1))
        yield "first body inside the contents", changed


def other_order(book):
    """Two neighbours named in the other order."""
    listed = entries(book)
    for at in range(1, len(listed)):
        yield f"{at - 1} and {at} named the other way", with_entry(with_entry(book, at - 1, listed[at]), at, listed[at - 1])


def tails(book):
    """Bytes after the last body, and bytes that are missing from it."""
    for more in (1, 3, 8, 9, 1000):
        yield f"{more} bytes more", book + bytes(more)
    for less in (1, 2, 3, 9):
        if len(book) - less >= 4:
            yield f"{less} bytes fewer", book[:-less]


def wrong_count(book):
    """One entry more or fewer than the count says."""
    for count in (book[3] - 1, book[3] + 1):
        if 0 <= count <= 16:
            yield f"count {count}", book[:3] + bytes([count]) + book[4:]


def big_endian(book):
    """Contents with their numbers the other way round."""
    if book[3]:
        contents = b"".join(struct.pack(">BBHI", *entry) for entry in entries(book))
        yield "big-endian contents", book[:4] + contents + book[4 + len(contents):]


def longer_last(book):
    """The last body claims one byte beyond the book's end."""
    if book[3]:
        last = entries(book)[-1]
        yield "end beyond the book", with_entry(book, book[3] - 1, last._replace(length=last.length + 1))


HEADER = [bad_headers, short_books]
CONTENTS = [cut_contents, bad_kinds, bad_starts, bad_lengths, gaps, overlaps, into_contents, other_order, tails, wrong_count,
            big_endian, longer_last]
