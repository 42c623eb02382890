"""Two stripes of two chunks with a parity each, merged into the parity of one stripe of four: no data is read.

Run it with the path of libmorph_codes.so.
"""
from ctypes import CDLL, POINTER, Structure, byref, c_size_t, c_uint32, c_uint8, cast, create_string_buffer
import sys


class Piece(Structure):
    """A chunk: its bytes and their number. A room is laid out alike."""
    _fields_ = [("bytes", POINTER(c_uint8)), ("length", c_size_t)]


def pieces(buffers):
    return (Piece * len(buffers))(*[Piece(cast(b, POINTER(c_uint8)), c_size_t(3)) for b in buffers])


codes = CDLL(sys.argv[1])
data = [create_string_buffer(chunk, 3) for chunk in (b"abc", b"def", b"ghi", b"jkl")]
point, size, one = c_uint8(2), c_size_t(3), c_size_t(1)
narrow = [create_string_buffer(3) for _ in range(2)]
wide, encoded = create_string_buffer(3), create_string_buffer(3)

print("check:", codes.morph_codes_check(byref(point), one, c_uint32(4)))
for b in range(2):
    status = codes.morph_codes_encode(byref(point), one, pieces(data[2 * b:2 * b + 2]), c_size_t(2), size,
                                      pieces(narrow[b:b + 1]), one)
    print(f"encode stripe {b}: {status}")
print("merge:", codes.morph_codes_merge(point, c_uint32(2), pieces(narrow), c_size_t(2), c_size_t(0), wide, size))
print("encode afresh:", codes.morph_codes_encode_block(point, pieces(data), c_size_t(4), c_size_t(0), encoded, size))
for x in range(3):
    print(f"byte {x}: merged {wide.raw[x]:02x}, encoded {encoded.raw[x]:02x}")
