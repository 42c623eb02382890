"""A stripe of four chunks with two parities loses two chunks, and has them again: in one call, and by a kept plan.

Run it with the path of libmorph_codes.so.
"""
from ctypes import CDLL, POINTER, Structure, c_size_t, c_uint32, c_uint8, cast, create_string_buffer
import sys


class Piece(Structure):
    """A chunk: its bytes and their number. A room is laid out alike."""
    _fields_ = [("bytes", POINTER(c_uint8)), ("length", c_size_t)]


def pieces(buffers):
    return (Piece * len(buffers))(*[Piece(cast(b, POINTER(c_uint8)), c_size_t(3)) for b in buffers])


codes = CDLL(sys.argv[1])
data = [create_string_buffer(chunk, 3) for chunk in (b"abc", b"def", b"ghi", b"jkl")]
parities, first, second = ([create_string_buffer(3) for _ in range(2)] for _ in range(3))
two, four, size = c_size_t(2), c_size_t(4), c_size_t(3)
points, lost, had = (c_uint8 * 2)(1, 2), (c_uint32 * 2)(0, 2), (c_uint32 * 2)(0, 1)
losses = points, two, c_uint32(4), lost, two, had, two
rows = create_string_buffer(8)

print("encode:", codes.morph_codes_encode(points, two, pieces(data), four, size, pieces(parities), two))
left = pieces(parities + [data[1], data[3]])
print("decode:", codes.morph_codes_decode(*losses, left, four, size, pieces(first), two))
print("plan:", codes.morph_codes_plan(*losses, rows, c_size_t(8)))
print("apply:", codes.morph_codes_apply(rows, c_size_t(8), left, four, size, pieces(second), two))
for e in range(2):
    print(f"piece {lost[e]}: {first[e].raw.decode()}, by the plan {second[e].raw.decode()}")
