#!/usr/bin/env python3
"""attributes.py FILE: surveys a Matter IDL text and prints its clusters, attributes, enums and bitmaps, as clusters.c does.
The shared library is the one that this example comes with, or the system's. docs/FORMAT.md says what the words hold."""
import ctypes, pathlib, struct, sys

WORDS = (0, 4, 3, 3, 2, 3, 4, 2, 5, 3, 2, 3, 1, 1, 2, 1, 1, 2)  # of a record, by its kind
PRIVILEGES = (b"view", b"operate", b"manage", b"administer")


def survey(text, name="libmatter_idl.so.2"):
    """The words of the catalogue, those of the report, and unescaping. Buffers of these lengths are always enough."""
    beside = pathlib.Path(__file__).resolve().parents[2].glob(f"*/{name}")
    library = ctypes.CDLL(str(next(beside, name)))
    library.matter_idl_format_2()  # a library of another format has no such function
    for entry, buffers in (library.matter_idl_survey, 3), (library.matter_idl_unescape, 2):
        entry.argtypes, entry.restype = [ctypes.c_char_p, ctypes.c_size_t] * buffers, ctypes.c_uint64
    catalogue, report = ctypes.create_string_buffer(8 * len(text) + 8), ctypes.create_string_buffer(4 * len(text) + 8)
    result = library.matter_idl_survey(text, len(text), catalogue, len(catalogue), report, len(report))
    if result >> 56:
        raise ValueError("refused by %d" % (result >> 56))
    sections = text.count(b"\n}") + 1
    words = struct.unpack_from(">%dQ" % (result // 8), catalogue)
    return words, struct.unpack_from(">%dQ" % sections, report), library.matter_idl_unescape


def lines(text, words, unescape, at=0):
    name = lambda first: text[first >> 24 & 0xFFFFF :][: first >> 4 & 0xFFFFF]
    while at < len(words):
        first, kind = words[at], words[at] >> 56
        if kind == 1:  # a cluster
            yield b"%s = %d\n" % (name(first), words[at + 2])
        elif kind in (2, 3):  # an enum or a bitmap, indented if it is its cluster's own
            yield b"%s%s %s\n" % (b"" if first >> 54 & 3 else b"  ", b"enum" if kind == 2 else b"bitmap", name(first))
        elif kind == 4:  # an entry
            yield b"    %5d %s\n" % (words[at + 1], name(first))
        elif kind == 7:  # an attribute: its name and its code are in the field that follows
            read = b"" if first >> 49 & 1 else b", read: " + PRIVILEGES[first >> 2 & 3]
            write = b"" if first >> 50 & 1 else b", write: " + PRIVILEGES[first & 3]
            yield b"  %5d %s%s%s\n" % (words[at + 4], name(words[at + 2]), read, write)
        elif kind == 17:  # an annotation, with the key as its name; a span of its own is 20 bits above where a name is
            part = name(words[at + 1] >> 20)
            output = ctypes.create_string_buffer(len(part) + 1)
            yield b"          %s: %s\n" % (name(first), output[: unescape(part, len(part), output, len(part))])
        at += WORDS[kind]


try:
    text = pathlib.Path(sys.argv[1]).read_bytes()
    catalogue, report, unescape = survey(text)
    with open(1, "wb", closefd=False) as output:
        output.writelines(lines(text, catalogue, unescape))
except Exception as error:
    sys.exit(print("attributes.py FILE:", error, file=sys.stderr) or 2)
for word in (refused := [word for word in report if word >> 20 & 15]):
    print("section at byte %d: refused by %d at byte %d" % (word >> 44, word >> 20 & 15, word & 0xFFFFF), file=sys.stderr)
sys.exit(1 if refused else 0)
