#!/usr/bin/env python3
"""Worked examples of show_spans.py: python3 tools/test_show_spans.py"""
import os
import sys
import unittest

sys.path.insert(0, os.path.dirname(os.path.abspath(__file__)))
from show_spans import show

SUM = b"fn f(x: u32) -> u32 {\n    x + + 1\n}\n"


def shown(content, line):
    return show("a.rs", content, line + b"\n").splitlines()


class Shown(unittest.TestCase):
    def test_one_token(self):
        at = SUM.index(b"+ 1")
        self.assertEqual(
            shown(SUM, b"refused 5 syntax %d..%d" % (at, at + 1)),
            [
                "refused: syntax",
                " --> a.rs:2:9",
                "  |",
                "2 |     x + + 1",
                "  |         ^ no program goes on so",
            ],
        )

    def test_end_of_the_text(self):
        text = b"fn f() -> u32 {\n    1\n\n"
        self.assertEqual(
            shown(text, b"refused 5 syntax 23..23"),
            [
                "refused: syntax",
                " --> a.rs:4:1",
                "  |",
                "2 |     1",
                "4 |",
                "  | ^ the program ends too early",
            ],
        )

    def test_end_without_a_final_newline(self):
        self.assertEqual(
            shown(b"fn f(", b"refused 5 syntax 5..5")[1:],
            [" --> a.rs:1:6", "  |", "1 | fn f(", "  |      ^ the program ends too early"],
        )

    def test_empty_text(self):
        self.assertEqual(
            shown(b"", b"refused 12 text 0..0")[1:],
            [" --> a.rs:1:1", "  |", "1 |", "  | ^ the text ends too early"],
        )

    def test_two_places(self):
        self.assertEqual(
            shown(b"fn f(x: u8, x: u8) {}", b"refused 7 twice 5..6 12..13")[1:],
            [
                " --> a.rs:1:6",
                "  |",
                "1 | fn f(x: u8, x: u8) {}",
                "  |      ^ declared here",
                " --> a.rs:1:13",
                "  |",
                "1 | fn f(x: u8, x: u8) {}",
                "  |             ^ and here again",
            ],
        )

    def test_type(self):
        self.assertEqual(
            shown(b"fn f() -> u8 { true }", b"refused 8 type 15..19 Mismatch")[3:],
            [
                "1 | fn f() -> u8 { true }",
                "  |                ^^^^ Mismatch: this has another type than is expected here",
            ],
        )

    def test_borrow(self):
        text = b"fn f(x: &mut u8) {\n    let y = &mut *x;\n    *x = 1;\n    *y = 2;\n}\n"
        late, early = text.index(b"*y"), text.index(b"*x = 1")
        line = b"refused 9 borrow f %d..%d Ended(0, %d..%d)" % (late, late + 6, early, early + 6)
        self.assertEqual(
            shown(text, line)[1:],
            [
                " --> a.rs:4:5",
                "  |",
                "4 |     *y = 2;",
                "  |     ^^^^^^ in f: loan 0 has ended before",
                " --> a.rs:3:5",
                "  |",
                "3 |     *x = 1;",
                "  |     ^^^^^^ it ended here",
            ],
        )

    def test_borrow_with_one_place(self):
        text = b"fn g(a: u8) {}"
        for why, note in [
            (b"Unassigned", "nothing is assigned yet"),
            (b"Joined(2)", "it is lost where the rounds of loop 2 join"),
            (b"RegionMismatch(1, 'a, #0)", "loan 1 is returned under region 'a, and #0 lends it"),
            (b"ReturnsLocal(3, y)", "loan 3 of the local y would leave the function"),
        ]:
            found = shown(text, b"refused 9 borrow g 3..4 " + why)
            self.assertEqual(found[-1], f"  |    ^ in g: {note}")

    def test_wide_and_combining(self):
        # Two columns each, then a letter whose accent is a character of its own.
        text = "x = 名前 + e\u0301 + y".encode()
        wide, accent, last = text.index("名".encode()), text.index(b"e"), text.index(b"y")
        self.assertEqual(
            shown(text, b"refused 7 unknown %d..%d" % (wide, wide + 6))[1:],
            [" --> a.rs:1:5", "  |", "1 | x = 名前 + e\u0301 + y", "  |     ^^^^ nothing has this name here"],
        )
        found = shown(text, b"refused 7 unknown %d..%d" % (accent, accent + 3))
        self.assertEqual(found[-1], "  |            ^ nothing has this name here")
        found = shown(text, b"refused 7 unknown %d..%d" % (last, last + 1))
        self.assertEqual((found[1], found[-1].index("^")), (" --> a.rs:1:15", 4 + 15))

    def test_accent_alone(self):
        text = "e\u0301".encode()
        self.assertEqual(shown(text, b"refused 5 syntax 1..3")[-1], "  | ^ no program goes on so")

    def test_tabs(self):
        text = b"\tx\t= y"
        self.assertEqual(
            shown(text, b"refused 7 unknown 5..6")[3:],
            ["1 | \tx\t= y", "  | \t \t  ^ nothing has this name here"],
        )
        # A tab in the marked part is as wide as its stop.
        self.assertEqual(shown(b"\tx\t= y", b"refused 5 syntax 1..4")[-1], "  | \t" + "^" * 9 + " no program goes on so")

    def test_several_lines(self):
        text = b"a\n  b {\n\n    c\n  }\nd"
        self.assertEqual(
            shown(text, b"refused 5 syntax 4..19")[1:],
            [
                " --> a.rs:2:3",
                "  |",
                "2 |   b {",
                "  |   ^^^",
                "3 |",
                "4 |     c",
                "  |     ^",
                "5 |   }",
                "  |   ^ no program goes on so",
            ],
        )

    def test_many_lines(self):
        text = b"/* a\nb\nc\nd\ne\nf\n"
        self.assertEqual(
            shown(text, b"refused 5 syntax 0..%d" % len(text))[3:],
            ["1 | /* a", "  | ^^^^", "2 | b", "  | ^", "...", "6 | f", "  | ^ no program goes on so"],
        )

    def test_crlf(self):
        text = b"fn f(\r\n  x y\r\n)"
        self.assertEqual(
            shown(text, b"refused 5 syntax 11..12")[1:],
            [" --> a.rs:2:5", "  |", "2 |   x y", "  |     ^ no program goes on so"],
        )

    def test_controls_are_visible(self):
        text = b"a \x1b[31m \xe2\x80\xae b"
        self.assertEqual(
            shown(text, b"refused 5 syntax 2..3")[3:],
            ["1 | a \u241b[31m \ufffd b", "  |   ^ no program goes on so"],
        )

    def test_long_line(self):
        text = b"x + " * 1000 + b"? + y" * 1000
        found = shown(text, b"refused 5 syntax 4000..4001")
        self.assertEqual(found[1], " --> a.rs:1:4001")
        self.assertEqual(found[3][found[4].index("^")], "?")
        self.assertLess(len(found[3]), 250)

    def test_bytes_that_are_no_text(self):
        self.assertEqual(
            shown(b"ab\xff", b"refused 4 utf8 2")[1:],
            [" --> a.rs:1:3", "  |", "1 | ab\ufffd", "  |   ^ from here on this is no UTF-8"],
        )

    def test_no_place(self):
        for line in [b"refused 5 syntax", b"refused 13 name", b"value 3", b"refused 12 text 9..9", b""]:
            self.assertEqual(show("a.rs", b"abc", line), "")


if __name__ == "__main__":
    unittest.main()
