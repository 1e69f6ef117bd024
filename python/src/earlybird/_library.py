"""The calls of include/earlybird.h, by ctypes: those of the shared library beside this file, or of the one that EARLYBIRD_LIBRARY
names."""
import ctypes
import os


class Segment(ctypes.Structure):
    _fields_ = [(name, ctypes.c_uint32) for name in ("documents", "terms", "text", "pool0", "pool1", "pool2", "pool3")]


class Numbers(ctypes.Structure):
    _fields_ = [
        ("documents", ctypes.c_uint64),
        *((name, ctypes.c_uint32) for name in ("mark", "segments", "docs", "terms", "begun")),
        ("last", Segment),
    ]


class Told(ctypes.Structure):
    _fields_ = [(name, ctypes.c_uint64) for name in ("seen", "count", "column", "written")]


class Counted(ctypes.Structure):
    _fields_ = [("seen", ctypes.c_uint64), ("total", ctypes.c_uint64), ("column", ctypes.c_uint64)]


class ToldWatches(ctypes.Structure):
    _fields_ = [("count", ctypes.c_uint64), ("written", ctypes.c_uint64)]


class How(ctypes.Structure):
    _fields_ = [
        *((name + end, kind) for name in ("fields", "id", "text") for end, kind in (("", ctypes.c_char_p), ("_len", ctypes.c_size_t))),
        ("words", ctypes.c_uint32),
    ]


class Handle(ctypes.Structure):
    _fields_ = [("at", ctypes.c_void_p), ("kind", ctypes.c_uint32)]


def load() -> ctypes.CDLL:
    beside = os.path.join(os.path.dirname(os.path.abspath(__file__)), "libearlybird.so")
    library = ctypes.CDLL(os.environ.get("EARLYBIRD_LIBRARY") or beside)
    u32, u64, size, pointer = ctypes.c_uint32, ctypes.c_uint64, ctypes.c_size_t, ctypes.c_void_p
    text = [ctypes.c_char_p, size]
    index, ids = [pointer, size, pointer], [pointer, size, pointer]
    counts = [*text, u64, u64, pointer, size, pointer]
    for name, result, arguments in [
        ("eb_words", u64, [u32, u32, u32]),
        ("eb_begin", u32, [*index, u32, u32, u32]),
        ("eb_check_reading", u32, [pointer]),
        ("eb_add_line_with", u32, [*index, pointer, *text]),
        ("eb_add_text_with", u32, [*index, pointer, u64, *text]),
        ("eb_ask_line_with", u32, [*index, pointer, *text, *ids]),
        ("eb_ask_text_with", u32, [*index, pointer, u32, *text, *ids]),
        ("eb_count_text_with", u32, [*index, pointer, *counts]),
        ("eb_documents", u64, [pointer]),
        ("eb_segments", u32, [pointer]),
        ("eb_last_segment", None, [pointer, pointer]),
        ("eb_open", u32, [pointer, pointer, u32, u32, u32]),
        ("eb_writer_add_line_with", u32, [pointer, pointer, *text]),
        ("eb_writer_add_text_with", u32, [pointer, pointer, u64, *text]),
        ("eb_writer_add_texts_with", u32, [pointer, pointer, pointer, size, pointer]),
        ("eb_reader", u32, [pointer, pointer]),
        ("eb_reader_ask_line_with", u32, [pointer, pointer, *text, *ids]),
        ("eb_reader_ask_text_with", u32, [pointer, pointer, u32, *text, *ids]),
        ("eb_reader_count_text_with", u32, [pointer, pointer, *counts]),
        ("eb_reader_seen", u32, [pointer, pointer]),
        ("eb_converter_convert", u32, [pointer, pointer]),
        ("eb_close", None, [pointer]),
        ("eb_stream_open", u32, [pointer, u32, u32, u32, u32]),
        ("eb_leader_add_line_with", u32, [pointer, pointer, *text]),
        ("eb_leader_add_text_with", u32, [pointer, pointer, u64, *text]),
        ("eb_leader_add_texts_with", u32, [pointer, pointer, pointer, size, pointer]),
        ("eb_leader_tell", u32, [pointer, pointer]),
        ("eb_leader_converter", u32, [pointer, pointer]),
        ("eb_spare_open", u32, [pointer, u32, u32, u32]),
        ("eb_leader_lend", u32, [pointer, pointer]),
        ("eb_leader_released", u32, [pointer, pointer]),
        ("eb_follower", u32, [pointer, pointer]),
        ("eb_follower_ask_line_with", u32, [pointer, pointer, *text, *ids]),
        ("eb_follower_ask_text_with", u32, [pointer, pointer, u32, *text, *ids]),
        ("eb_follower_count_text_with", u32, [pointer, pointer, *counts]),
        ("eb_follower_seen", u32, [pointer, pointer]),
        ("eb_follower_held", u32, [pointer, pointer]),
        ("eb_image_head", u32, [u32, u32, u32, pointer, size]),
        ("eb_image_setting", u32, [pointer, size, pointer, pointer, pointer]),
        ("eb_part_of_line", u32, [pointer, *text, pointer, size, pointer]),
        ("eb_part_of_text", u32, [pointer, u64, *text, pointer, size, pointer]),
        ("eb_add_part", u32, [*index, pointer, size, pointer]),
        ("eb_writer_add_part", u32, [pointer, pointer, size, pointer]),
        ("eb_watches", u32, [pointer]),
        ("eb_watch_set", u32, [pointer, pointer, u32, *text, pointer]),
        ("eb_watch_remove", u32, [pointer, u32]),
        ("eb_watches_tell_line", u32, [pointer, pointer, *text, *ids]),
        ("eb_watches_tell_text", u32, [pointer, pointer, u64, *text, *ids]),
    ]:
        call = getattr(library, name)
        call.restype, call.argtypes = result, arguments
    return library
