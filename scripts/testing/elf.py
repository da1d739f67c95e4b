"""What a program for Linux needs of the system that it is started on, by its headers."""
import struct

MAGIC = b"\x7fELF\x02"
LOADED, DYNAMIC, INTERPRETER = 1, 2, 3


def segments(path):
    """The kinds of the segments of a program for 64 bits; none where it is no such program."""
    with open(path, "rb") as file:
        data = file.read()
    if not data.startswith(MAGIC) or len(data) < 64:
        return set()
    start, size, count = struct.unpack_from("<Q", data, 32)[0], *struct.unpack_from("<HH", data, 54)
    return {struct.unpack_from("<I", data, start + size * k)[0] for k in range(count)}


def is_static(path):
    """Whether it is a program that is started without a loader, and so with no library but its own."""
    found = segments(path)
    return LOADED in found and not {DYNAMIC, INTERPRETER} & found
