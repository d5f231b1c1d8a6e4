"""overlap.py [T S]: the overlap of two states given as hexadecimal digits, `-` for no bytes.

Prints the number that the library answers, the four bytes, and what they stand for. `make python-example` at the root makes the shared
library that it loads. include/sangyldem.h says what the call asks of its arguments.
"""
import ctypes
import pathlib
import sys

LIBRARY = pathlib.Path(__file__).resolve().parents[2] / "build" / "python" / "libsangyldem.so"


def load(path=LIBRARY):
    """The library's call, with its types."""
    call = ctypes.CDLL(str(path)).overlap
    run = [ctypes.c_char_p, ctypes.c_size_t]
    call.argtypes = run + run + [ctypes.POINTER(ctypes.c_uint8), ctypes.c_size_t]
    call.restype = ctypes.c_uint8
    return call


def overlap(call, t, s):
    """The number of the answer, and its four bytes."""
    answer = (ctypes.c_uint8 * 4)()
    number = call(t, len(t), s, len(s), answer, len(answer))
    return number, bytes(answer)


def scalar(answer):
    """What four bytes stand for: epsilon, p and m."""
    word = int.from_bytes(answer, "big")
    return word >> 31, -(word >> 17 & 0x3FFF), word >> 14 & 7


def bytes_of(text):
    return b"" if text == "-" else bytes.fromhex(text)


def main(words):
    if len(words) not in (0, 2):
        sys.exit("usage: overlap.py [T S]")
    try:
        t, s = (bytes_of(word) for word in words or ["04100088", "04100089"])
    except ValueError:
        sys.exit("overlap.py: pairs of hexadecimal digits are wanted, or - for no bytes")
    number, answer = overlap(load(), t, s)
    print("number", number)
    if number == 0:
        print("bytes", answer.hex(" "))
        print("epsilon %d, p %d, m %d" % scalar(answer))


if __name__ == "__main__":
    main(sys.argv[1:])
