"""The comparison of header, crates and wrappers sees each change of a name, an order, a width or a number, made in a copy."""
import contextlib
import io
import os
import shutil
import tempfile
import unittest
from unittest import mock

import check_header
from check_header import BUILD, CRATES, EXPORTS, HEADER, LIMITS, OF_LINES, PYTHON, RELEASE, RUST, RUST_TEXTS, TOP

CODES, ROWS = "crates/jolunza/src/code.rt", "crates/cb_handle/src/rows.rt"
FRAMES, GROUPS = "crates/cb_frames/src/frame.rt", "crates/cb_times/src/group.rt"

# The file, a text of it, what stands there instead, and what has to be said.
CHANGES = [
    (HEADER, "jolunza_stable(", "jolunza_steady(", "function jolunza_steady"),
    (HEADER, "JOLUNZA_TOO_FAR = 11", "JOLUNZA_TOO_FAR = 12", "JOLUNZA_TOO_FAR"),
    (HEADER, "JOLUNZA_TICK = 2", "JOLUNZA_TICK = 3", "JOLUNZA_TICK"),
    (HEADER, "JOLUNZA_LONGEST_FRAME 1456", "JOLUNZA_LONGEST_FRAME 1455", "JOLUNZA_LONGEST_FRAME"),
    (HEADER, "JOLUNZA_MOST_MESSAGES 32", "JOLUNZA_MOST_MESSAGES 33", "JOLUNZA_MOST_MESSAGES"),
    (HEADER, "JOLUNZA_BURST_TOO_LONG = 16", "JOLUNZA_BURST_TOO_LONG = 17", "JOLUNZA_BURST_TOO_LONG"),
    (HEADER, "JOLUNZA_LONGEST_LINE 226425", "JOLUNZA_LONGEST_LINE 226424", "JOLUNZA_LONGEST_LINE"),
    (HEADER, "size_t length, uint32_t *group, uint32_t *member);", "size_t length, uint32_t *member, uint32_t *group);", "jolunza_sender"),
    (HEADER, 'return "the bytes are no frame: drop them"', 'return "the bytes are no frame"', "JOLUNZA_MALFORMED is the bytes are no frame: drop them"),
    (HEADER, 'case JOLUNZA_TOO_FAR: return', 'case JOLUNZA_TOO_FAR - 20: return', "JOLUNZA_TOO_FAR has no sentence"),
    (HEADER, 'return "done"', 'return "the handle holds no member"', "two codes have the sentence"),
    (HEADER, "const size_t *lengths, size_t count);", "size_t count, const size_t *lengths);", "jolunza_cast_burst"),
    (HEADER, "JOLUNZA_VERSION 1", "JOLUNZA_VERSION 2", "the version"),
    (HEADER, "bool is_repeat;", "uint8_t is_repeat;", "jolunza_received"),
    (HEADER, "size_t delivered;\n} jolunza_entry_head", "uint32_t delivered;\n} jolunza_entry_head", "jolunza_entry_head"),
    (HEADER, "uint32_t first;\n    uint32_t last;", "uint32_t last;\n    uint32_t first;", "jolunza_range"),
    (HEADER, "uint32_t jolunza_tick(", "size_t jolunza_tick(", "jolunza_tick"),
    (HEADER, "uint32_t me,\n", "size_t me,\n", "jolunza_open"),
    (HEADER, "const uint8_t *payload", "uint8_t *payload", "jolunza_cast"),
    (HEADER, "uint32_t *time, size_t time_capacity", "uint32_t *time", "jolunza_event"),
    (RUST, "pub const JOLUNZA_MALFORMED: u32 = 12;", "", "JOLUNZA_MALFORMED"),
    (RUST, "pub const JOLUNZA_IMPOSSIBLE: u32 = 10;", "pub const JOLUNZA_IMPOSSIBLE: u32 = 11;", "JOLUNZA_IMPOSSIBLE"),
    (RUST, "pub to: u32,", "pub to: u64,", "jolunza_frame_head"),
    (RUST, "pub is_own: bool,\n    pub sender: u32,", "pub sender: u32,\n    pub is_own: bool,", "jolunza_event_head"),
    (RUST, "pub fn jolunza_close(handle: *mut jolunza_handle);", "", "function jolunza_close"),
    (RUST, "payload: *const u8, length: usize", "length: usize, payload: *const u8", "jolunza_cast"),
    (RUST_TEXTS, '"the frame is of another group: drop it"', '"the frame is of another group"', "JOLUNZA_OTHER_GROUP"),
    (PYTHON, '"the frame is of another group: drop it"', '"the frame is of another group"', "JOLUNZA_OTHER_GROUP"),
    (PYTHON, "OTHER_GROUP = 9", "OTHER_GROUP = 90", "JOLUNZA_OTHER_GROUP"),
    (PYTHON, "ARRIVE = 1", "ARRIVE = 4", "JOLUNZA_ARRIVE"),
    (PYTHON, "MOST_MEMBERS = 64", "MOST_MEMBERS = 65", "JOLUNZA_MOST_MEMBERS"),
    (PYTHON, '("to_all", c_bool), ("to", c_uint32)', '("to", c_uint32), ("to_all", c_bool)', "jolunza_frame_head"),
    (PYTHON, '("time", POINTER(c_uint32)), ("capacity", c_size_t)', '("time", POINTER(c_uint32)), ("capacity", c_uint32)', "jolunza_time"),
    (PYTHON, '"jolunza_close": (None', '"jolunza_close": (c_uint32', "jolunza_close"),
    (EXPORTS, "me: u32,\n    history_max: usize,", "history_max: usize,\n    me: u32,", "jolunza_open"),
    (EXPORTS, "ranges: &mut [Range]", "ranges: &[Range]", "jolunza_missing"),
    (EXPORTS, "handle: &mut Handle, counts: &mut Counts", "handle: &mut Handle, counts: &mut Received", "jolunza_count"),
    (EXPORTS, "fn jolunza_entry(", "fn jolunza_entries(", "function jolunza_entry"),
    (ROWS, "pub is_entered: bool,", "pub is_entered: u32,", "jolunza_received"),
    (ROWS, "pub first: u32,", "pub first: u64,", "jolunza_range"),
    (CODES, "pub const OVERLAP: u32 = 14;", "", "JOLUNZA_OVERLAP"),
    (CODES, "pub const WINDOW_FULL: u32 = 7;", "pub const WINDOW_FULL: u32 = 8;", "JOLUNZA_WINDOW_FULL"),
    (FRAMES, "LAST_NUMBER: u32 = 4_294_967_295;", "LAST_NUMBER: u32 = 429_496_729;", "JOLUNZA_LONGEST_LINE"),
    (GROUPS, "WIDEST_WINDOW: u32 = 256;", "WIDEST_WINDOW: u32 = 255;", "JOLUNZA_LONGEST_LINE"),
    (BUILD, "JOLUNZA_1 {", "JOLUNZA_2 {", "the version"),
    (RELEASE, "1.", "2.", "the version"),
]


def copy_to(folder):
    for path in [HEADER, RUST, RUST_TEXTS, PYTHON, BUILD, RELEASE, *LIMITS.values(), *OF_LINES.values()]:
        os.makedirs(os.path.dirname(os.path.join(folder, path)), exist_ok=True)
        shutil.copy(os.path.join(TOP, path), os.path.join(folder, path))
    for crate in CRATES:
        shutil.copytree(os.path.join(TOP, f"crates/{crate}/src"), os.path.join(folder, f"crates/{crate}/src"))


def compare(folder):
    """The status, and what is printed."""
    printed = io.StringIO()
    with mock.patch.object(check_header, "TOP", folder), contextlib.redirect_stdout(printed):
        return check_header.main([]), printed.getvalue()


class EachChangeIsSeen(unittest.TestCase):
    def setUp(self):
        self.folder = tempfile.mkdtemp()
        self.addCleanup(shutil.rmtree, self.folder)
        copy_to(self.folder)

    def change(self, path, old, new):
        with open(os.path.join(self.folder, path), encoding="utf-8") as file:
            text = file.read()
        self.assertIn(old, text)
        with open(os.path.join(self.folder, path), "w", encoding="utf-8") as file:
            file.write(text.replace(old, new, 1))
        return text

    def test_a_copy_has_no_difference(self):
        status, printed = compare(self.folder)
        self.assertEqual(status, 0, printed)

    def test_each_change(self):
        for path, old, new, said in CHANGES:
            with self.subTest(f"{path}: {old} -> {new}"):
                text = self.change(path, old, new)
                status, printed = compare(self.folder)
                self.assertEqual(status, 1, printed)
                self.assertIn(said, printed)
                with open(os.path.join(self.folder, path), "w", encoding="utf-8") as file:
                    file.write(text)


if __name__ == "__main__":
    unittest.main()
