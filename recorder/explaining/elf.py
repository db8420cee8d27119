"""The build-id of a file, by which one build of a program is known from another."""
import struct

NOTE, GNU_BUILD_ID = 4, 3


def build_id(path):
    """The build-id of an ELF file of 64 bits, in hex; None where it has none."""
    with open(path, 'rb') as file:
        head = file.read(64)
        if head[:6] != b'\x7fELF\x02\x01' or len(head) < 64:
            return None
        table, = struct.unpack_from('<Q', head, 32)
        size, count = struct.unpack_from('<HH', head, 54)
        for number in range(count):
            file.seek(table + number * size)
            segment = file.read(56)
            if len(segment) == 56 and struct.unpack_from('<I', segment)[0] == NOTE:
                offset, _, _, length = struct.unpack_from('<QQQQ', segment, 8)
                file.seek(offset)
                found = _among(file.read(min(length, 1 << 16)))
                if found:
                    return found
    return None


def _among(notes):
    at = 0
    while at + 12 <= len(notes):
        name, size, kind = struct.unpack_from('<III', notes, at)
        begin = at + 12 + (name + 3) // 4 * 4
        if kind == GNU_BUILD_ID and notes[at + 12:at + 12 + name] == b'GNU\0':
            return notes[begin:begin + size].hex()
        at = begin + (size + 3) // 4 * 4
    return None
