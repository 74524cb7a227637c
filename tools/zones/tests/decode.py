"""decode.py FILE...: PNG files by python3's zlib. Of each: a line of its width and height, then its dots, three bytes each, from the top on."""

import struct
import sys
import zlib


def chunks(data):
    assert data[:8] == b"\x89PNG\r\n\x1a\n", "signature"
    at = 8
    while at < len(data):
        length, name = struct.unpack(">I4s", data[at : at + 8])
        body = data[at + 8 : at + 8 + length]
        (check,) = struct.unpack(">I", data[at + 8 + length : at + 12 + length])
        assert len(body) == length and zlib.crc32(name + body) == check, "chunk"
        yield name, body
        at += 12 + length


def dots(data):
    all_chunks = list(chunks(data))
    names = [name for name, _ in all_chunks]
    assert names[0] == b"IHDR" and names[-1] == b"IEND", names
    assert set(names[1:-1]) == {b"IDAT"}, names
    width, height, depth, colour, packing, filters, interlace = struct.unpack(">IIBBBBB", all_chunks[0][1])
    assert (depth, colour, packing, filters, interlace) == (8, 2, 0, 0, 0), "header"
    unpacker = zlib.decompressobj()
    plain = unpacker.decompress(b"".join(body for _, body in all_chunks[1:-1]))
    assert unpacker.eof and not unpacker.unused_data, "the stream ends where the chunks end"
    row = 3 * width + 1
    assert len(plain) == row * height, "length"
    assert not any(plain[::row]), "no filter"
    return width, height, b"".join(plain[n * row + 1 : (n + 1) * row] for n in range(height))


for name in sys.argv[1:]:
    with open(name, "rb") as file:
        width, height, bytes_of = dots(file.read())
    sys.stdout.buffer.write(b"%d %d\n" % (width, height) + bytes_of)
