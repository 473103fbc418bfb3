"""Object files and what is linked of them, for bin/check-linked and bench/link (System V ABI, Object Files; ELF for the Arm
Architecture).
"""
import struct

UNDEFINED, TEXT, INIT, ABSOLUTE = 0, 1, 2, 0xFFF1
ABS32, CALL, JUMP24, MOVW, MOVT = 2, 10, 30, 47, 48
ALLOC, PROGBITS, SYMTAB, REL, GLOBAL = 2, 1, 2, 9, 1
NAMES = b"\0.text\0.init\0.rel.text\0.symtab\0.strtab\0.shstrtab\0"
# of each section its name's place, its type and flags, the part that it holds, link, info, alignment and entry size
SECTIONS = [(1, PROGBITS, 6, 0, 0, 0, 4, 0), (7, PROGBITS, 2, 1, 0, 0, 4, 0), (13, REL, 0, 2, 4, 1, 4, 8),
            (23, SYMTAB, 0, 3, 5, 1, 4, 16), (31, 3, 0, 4, 0, 0, 1, 0), (39, 3, 0, 5, 0, 0, 1, 0)]


def object_file(text, init, symbols, relocs, thumb=False):
    """The file of an object, in the one form that the linker takes. Symbols are names with their sections and values, relocations
    places with their kinds and symbols. With thumb the values of code have bit 0 set, as other linkers want them of Thumb code.
    """
    strings, table = b"\0", bytes(16)
    for name, home, value in symbols:
        bit = 1 if thumb and home == TEXT else 0
        table += struct.pack("<IIIBBH", len(strings), value + bit, 0, 0x12 if home == TEXT else 0x10, 0, home)
        strings += name.encode() + b"\0"
    entries = b"".join(struct.pack("<II", at, 256 * (symbol + 1) + kind) for at, kind, symbol in relocs)
    contents, places, at = b"", [], 52
    for part in (text, init, entries, table, strings, NAMES):
        places.append((at, len(part)))
        contents += part + bytes(-len(part) % 4)
        at = 52 + len(contents)
    headers = bytes(40)
    for name, kind, flags, part, link, info, align, size in SECTIONS:
        headers += struct.pack("<10I", name, kind, flags, 0, *places[part], link, info, align, size)
    header = b"\x7fELF\x01\x01\x01" + bytes(9) + struct.pack("<HHIIIIIHHHHHH", 1, 40, 1, 0, 0, at, 0x05000000, 52, 0, 0, 40, 7, 6)
    return header + contents + headers


def text_at(strings, at):
    """The text that begins at a place of a string table."""
    return strings[at:strings.index(b"\0", at)].decode()


def sections_of(file):
    """The sections of an ELF file: of each its name, its header and its bytes."""
    at, (count, names) = struct.unpack_from("<I", file, 32)[0], struct.unpack_from("<HH", file, 48)
    headers = [struct.unpack_from("<10I", file, at + 40 * k) for k in range(count)]
    parts = [file[it[4]:it[4] + it[5]] for it in headers]
    return [(text_at(parts[names], it[0]), it, part) for it, part in zip(headers, parts)]


def parts_of(file):
    """What an assembler's object file holds of text, initial contents (.rodata), symbols that other objects see, and relocations of
    the text.
    """
    sections = sections_of(file)
    found = {name: part for name, _, part in sections}
    homes = {k: TEXT if name == ".text" else INIT for k, (name, _, _) in enumerate(sections) if name in (".text", ".rodata")}
    symbols, numbers = [], {}
    for k in range(len(found[".symtab"]) // 16):
        name, value, _, info, _, section = struct.unpack_from("<IIIBBH", found[".symtab"], 16 * k)
        home = homes.get(section, section)
        if info >> 4 == GLOBAL:
            numbers[k] = len(symbols)
            symbols.append((text_at(found[".strtab"], name), home, value & ~1 if home == TEXT else value))
    relocs = []
    for at, info in struct.iter_unpack("<II", found.get(".rel.text", b"")):
        relocs.append((at, info % 256, numbers[info // 256]))
    return found[".text"], found.get(".rodata", b""), symbols, relocs


def words_in(file):
    """The words of memory that aren't 0 in a linked ELF file, by their addresses."""
    memory = {}
    for _, (_, kind, flags, address, *_), part in sections_of(file):
        if kind == PROGBITS and flags & ALLOC:
            part += bytes(-len(part) % 4)
            memory.update((address + 4 * k, word) for k, (word,) in enumerate(struct.iter_unpack("<I", part)) if word)
    return memory


def pieces(parts):
    """Parts, each with its size before it, and before all their number."""
    return struct.pack("<I", len(parts)) + b"".join(struct.pack("<I", len(it)) + it for it in parts)
