"""The module: what the calls answer, refuse and take, on any thread.

    python3 -m unittest discover -s tests      # in bindings/python
"""

from __future__ import annotations

import array
import copy
import ctypes
import os
import pickle
import re
import shutil
import subprocess
import sys
import tempfile
import threading
import unittest
from pathlib import Path
from typing import Callable, List, Optional
from unittest import mock

TESTS = Path(__file__).resolve().parent
PACKAGE = TESTS.parent
ROOT = PACKAGE.parent.parent
sys.path[:0] = [str(PACKAGE), str(TESTS)]

import noontrough  # noqa: E402
from noontrough import (  # noqa: E402
    Clash, NewSource, Refusal, Tally, afm_export, afm_import, check, clash, create, get, put,
)
from tables import Draft, k  # noqa: E402

K = k()
SOURCE = b"AB1;C22;"


def setUpModule() -> None:
    """Loads the library first: where it is missing, all tests fail with the message that says what to run."""
    noontrough._library()


class Calls(unittest.TestCase):
    """A test that makes calls which may be refused."""

    def assert_refused(self, number: int, node: int, call: Callable, *arguments: bytes) -> None:
        with self.assertRaises(Refusal) as caught:
            call(*arguments)
        refusal = caught.exception
        self.assertEqual((refusal.number, refusal.node), (number, node))
        self.assertEqual(refusal.sentence, noontrough.SENTENCES[number])
        self.assertEqual(str(refusal), f"refused {number} {node}: {refusal.sentence}")


class Cases(Calls):
    """The cases of document 01's section on program K."""

    def test_k_is_the_program_of_the_example(self) -> None:
        self.assertEqual(len(K), 65)
        self.assertEqual((ROOT / "examples/k/program.table").read_bytes(), K)
        self.assertEqual(check(K), 15)

    def test_get(self) -> None:
        self.assertEqual(get(K, SOURCE), b"AB;C;")
        self.assertEqual(get(K, b""), b"")
        self.assertEqual(get(K, b"Z;"), b"Z;")
        self.assert_refused(13, 0, get, K, b"[;")
        self.assert_refused(13, 0, get, K, b"@;")

    def test_put(self) -> None:
        self.assertEqual(put(K, b"C;AB;", SOURCE), b"C22;AB1;")
        self.assertEqual(put(K, b"C;D;", SOURCE), b"C22;D0;")
        self.assertEqual(put(K, b"AB;AB;", SOURCE), b"AB1;AB0;")
        self.assertEqual(put(K, b"A;A;", b"A1;A2;"), b"A1;A2;")
        self.assertEqual(put(K, b"", SOURCE), b"")
        self.assertEqual(put(K, b"AB;", b""), b"AB0;")
        self.assert_refused(14, 0, put, K, b"AB1;", SOURCE)

    def test_create(self) -> None:
        self.assertEqual(create(K, b"AB;"), b"AB0;")
        self.assertEqual(create(K, b""), b"")
        self.assert_refused(14, 0, create, K, b"AB1;")

    def test_the_room_for_the_result(self) -> None:
        """The module always lends 4,096 bytes, so this asks the library itself."""
        for room, number, length, kept, text in (8, 0, 8, 2, b"C22;AB1;"), (7, 16, 0, 0, b"-------"):
            out = ctypes.create_string_buffer(b"-" * room, room)
            answer = noontrough._library().noontrough_put(K, len(K), b"C;AB;", 5, SOURCE, len(SOURCE), out, room)
            self.assertEqual((answer.number, answer.node, answer.length, out.raw), (number, 0, length, text))
            self.assertEqual((answer.kept, answer.made, answer.dropped), (kept, 0, 0))

    def test_padded_names(self) -> None:
        """Trailing spaces do not count when an entry is found by its key, and are written as the sheet has them."""
        draft = Draft()
        name, digits = draft.repeat(draft.set(b"AZ", b"  ", b"\t\t")), draft.repeat(draft.range(b"0", b"9"))
        label, nothing, nought = draft.key(name), draft.word(b""), draft.word(b"0")
        rest = draft.lens_join(draft.const(digits, nothing, nought), draft.copy_word(b";"))
        draft.lens_repeat(draft.match(draft.lens_join(label, rest)))
        for sheet, old, result in (
            (b"AB  ;", b"AB1;", b"AB  1;"), (b"AB;", b"AB  1;", b"AB1;"), (b"  ;", b"7;", b"  7;"),
            (b" A;", b"A1;", b" A0;"), (b"A\t;", b"A1;", b"A\t0;"), (b"A ;A;", b"A1;A 2;", b"A 1;A2;"),
        ):
            self.assertEqual(put(draft.table(), sheet, old), result)

    def test_copy_instead_of_key(self) -> None:
        self.assertEqual(put(k(label=16), b"C;AB;", SOURCE), b"C1;AB22;")

    def test_entries_of_the_report(self) -> None:
        """Repeated x*y*z*$ with y hidden and x* as the key, and the same without match."""
        for matched, result in (True, b"xxyyzzz$xy$"), (False, b"xxyzzz$xyy$"):
            draft = Draft()
            xs, ys, zs = [draft.repeat(draft.word(letter)) for letter in (b"x", b"y", b"z")]
            nothing, end = draft.word(b""), draft.copy_word(b"$")
            key, hidden, copied = draft.key(xs), draft.const(ys, nothing, nothing), draft.copy(zs)
            line = draft.lens_join(key, draft.lens_join(hidden, draft.lens_join(copied, end)))
            draft.lens_repeat(draft.match(line) if matched else line)
            self.assertEqual(put(draft.table(), b"xxzzz$x$", b"xyz$xxyyzz$"), result)

    def test_a_copy_may_be_ambiguous_inside(self) -> None:
        draft = Draft()
        letter = draft.word(b"a")
        draft.copy(draft.union(letter, letter))
        self.assertEqual(check(draft.table()), 3)
        self.assertEqual(get(draft.table(), b"a"), b"a")

    def test_arms_that_share_no_source(self) -> None:
        self.assertEqual(check(arms(b"M", b"N")), 5)
        self.assert_refused(9, 4, check, arms(b"M", b"M"))

    def test_limits_of_the_texts(self) -> None:
        self.assertEqual(get(K, b"A;" * 257), b"A;" * 257)
        self.assert_refused(15, 0, put, K, b"A;", b"A;" * 257)
        self.assertEqual(put(K, b"A;A;", b"A7;" * 256), b"A7;A7;")
        self.assertEqual(get(K, b"A;" * 2048), b"A;" * 2048)
        self.assert_refused(12, 0, get, K, b"A;" * 2048 + b"A")

    def test_the_examples(self) -> None:
        for name in "k", "composers", "kerning":
            table, source, sheet, edited, result, created = [
                (ROOT / "examples" / name / file).read_bytes()
                for file in ("program.table", "source", "sheet", "edited", "result", "created")
            ]
            with self.subTest(name):
                self.assertEqual(check(table), table[0])
                self.assertEqual(get(table, source), sheet)
                self.assertEqual(put(table, edited, source), result)
                self.assertEqual(put(table, sheet, source), source)
                self.assertEqual(create(table, edited), created)

    def test_bytes_of_every_value(self) -> None:
        """A zero byte is a byte like any other, and no text ends at one."""
        draft = Draft()
        draft.copy(draft.repeat(draft.range(b"\x00", b"\xff")))
        text = bytes(range(256))
        self.assertEqual(get(draft.table(), text), text)
        self.assertEqual(put(draft.table(), text[::-1], text), text[::-1])
        self.assertEqual(create(draft.table(), b"\x00"), b"\x00")


    def test_accented_capitals(self) -> None:
        """Of document 02: the multiplication sign, 0xD7, breaks their run."""
        for pairs in (b"\xc0\xd6", b"\xd8\xde"), (b"\xd8\xde", b"\xc0\xd0", b"\xc8\xd6", b"\xda\xda"):
            draft = Draft()
            name, digit = draft.some(draft.set(*pairs)), draft.range(b"0", b"9")
            label, nothing, nought = draft.key(name), draft.word(b""), draft.word(b"0")
            remark = draft.const(draft.repeat(digit), nothing, nought)
            line = draft.lens_join(label, draft.lens_join(remark, draft.copy_word(b";")))
            draft.lens_repeat(draft.match(line))
            table = draft.table()
            with self.subTest(pairs=pairs):
                self.assertEqual(check(table), 15)
                self.assertEqual(get(table, b"\xc0\xd61;\xd8\xde22;"), b"\xc0\xd6;\xd8\xde;")
                self.assertEqual(put(table, b"\xde;\xc0;", b"\xc01;\xde22;"), b"\xde22;\xc01;")
                self.assertEqual(create(table, b"\xca\xda;"), b"\xca\xda0;")
                for byte in b"\xbf", b"\xd7", b"\xdf":
                    self.assert_refused(13, 0, get, table, byte + b"1;")
                    self.assert_refused(14, 0, create, table, byte + b";")


class Tallies(Calls):
    """What became of the entries in a put: the case of document 02, and by hand."""

    def assert_tally(self, kept: int, made: int, dropped: int, new: bytes) -> None:
        self.assertEqual(new.tally, Tally(kept, made, dropped))

    def test_program_k(self) -> None:
        self.assert_tally(1, 1, 1, put(K, b"C;D;", SOURCE))
        self.assert_tally(2, 0, 0, put(K, b"C;AB;", SOURCE))
        self.assert_tally(1, 1, 1, put(K, b"AB;AB;", SOURCE))
        self.assert_tally(2, 0, 0, put(K, b"A;A;", b"A1;A2;"))
        self.assert_tally(1, 2, 0, put(K, b"A;A;A;", b"A1;"))
        self.assert_tally(0, 0, 2, put(K, b"", SOURCE))
        self.assert_tally(0, 1, 0, put(K, b"AB;", b""))
        self.assert_tally(0, 0, 0, put(K, b"", b""))
        self.assert_tally(2, 0, 254, put(K, b"A;A;", b"A7;" * 256))

    def test_the_examples(self) -> None:
        """D is made and Z dropped; Tansman and Sibelius; V;A and A;W."""
        for name, edited, entries in ("k", (4, 1, 1), 5), ("composers", (2, 1, 1), 3), ("kerning", (8, 1, 1), 9):
            table, source, sheet, correction = [
                (ROOT / "examples" / name / file).read_bytes() for file in ("program.table", "source", "sheet", "edited")
            ]
            with self.subTest(name):
                self.assert_tally(*edited, put(table, correction, source))
                self.assert_tally(entries, 0, 0, put(table, sheet, source))

    def test_524288_entries(self) -> None:
        """128 entries at each of 4,096 letters: 127 that are empty, and the letter."""
        draft = Draft()
        doubled = draft.match(draft.copy_word(b""))
        empty = doubled
        for _ in range(6):
            doubled = draft.lens_join(doubled, doubled)
            empty = draft.lens_join(empty, doubled)
        draft.lens_repeat(draft.lens_join(empty, draft.match(draft.copy_word(b"a"))))
        table, full = draft.table(), b"a" * 4096
        self.assert_tally(0, 524288, 0, put(table, full, b""))
        self.assert_tally(256, 524032, 0, put(table, full, b"aa"))
        self.assert_tally(128, 0, 128, put(table, b"a", b"aa"))

    def test_a_program_without_entries(self) -> None:
        draft = Draft()
        draft.copy(draft.repeat(draft.range(b"A", b"Z")))
        self.assert_tally(0, 0, 0, put(draft.table(), b"AV", b"VA"))

    def test_by_name_by_place_and_as_a_line(self) -> None:
        tally = put(K, b"A;A;A;", b"A1;").tally
        self.assertEqual((tally.kept, tally.made, tally.dropped), (1, 2, 0))
        kept, made, dropped = tally
        self.assertEqual((kept, made, dropped), (1, 2, 0))
        self.assertEqual(str(tally), "kept 1 made 2 dropped 0")
        self.assertEqual(f"{tally}", "kept 1 made 2 dropped 0")
        self.assertEqual(repr(tally), "Tally(kept=1, made=2, dropped=0)")

    def test_the_new_source_is_bytes(self) -> None:
        new = put(K, b"C;D;", SOURCE)
        self.assertIsInstance(new, NewSource)
        self.assertEqual((new, hash(new), len(new)), (b"C22;D0;", hash(b"C22;D0;"), 7))
        self.assertIs(type(new[:3]), bytes)
        self.assertEqual(get(K, new), b"C;D;")
        self.assert_tally(2, 0, 0, put(K, get(K, new), new))
        with tempfile.TemporaryFile() as file:
            file.write(new)
            file.seek(0)
            self.assertEqual(file.read(), b"C22;D0;")

    def test_a_copy_has_it_too(self) -> None:
        new = put(K, b"C;D;", SOURCE)
        pickled = [pickle.loads(pickle.dumps(new, protocol)) for protocol in range(pickle.HIGHEST_PROTOCOL + 1)]
        for other in [*pickled, copy.copy(new), copy.deepcopy(new)]:
            self.assertEqual(other, b"C22;D0;")
            self.assert_tally(1, 1, 1, other)

    def test_on_another_thread(self) -> None:
        with mock.patch.object(noontrough, "_stack_here", return_value=0):
            self.assert_tally(1, 1, 1, put(K, b"C;D;", SOURCE))

    def test_a_refusal_has_zeros(self) -> None:
        """The module has nothing to show then, so this asks the library itself."""
        many, out = b"A;" * 257, ctypes.create_string_buffer(8)
        for number, table, sheet, source in (
            (1, b"", b"", b""), (12, K, b"A;" * 2049, SOURCE), (13, K, b"A;", b"[;"), (14, K, b"A1;", SOURCE),
            (15, K, b"A;", many), (16, K, b"C;AB;A;", SOURCE),
        ):
            slices = [part for text in (table, sheet, source, out) for part in (text, len(text))]
            answer = noontrough._library().noontrough_put(*slices)
            self.assertEqual((answer.number, answer.node, answer.length), (number, 0, 0))
            self.assertEqual((answer.kept, answer.made, answer.dropped), (0, 0, 0))


class Clashes(Calls):
    """Why a program is refused with 7 to 11, by hand from document 02's rule."""

    def assert_clash(self, draft: Draft, number: int, text: bytes, ends: object = None, arms: object = None) -> None:
        """The last node is the one that is refused."""
        self.assert_refused(number, draft.last, check, draft.table())
        found = clash(draft.table())
        self.assertEqual(found, Clash(number, draft.last, text, ends, arms))
        self.assertEqual(found.is_in_source, number in (7, 9, 10))

    def test_a_join(self) -> None:
        """abcd can also be cut behind its third letter."""
        draft = Draft()
        left, right = draft.any_of(b"a", b"ab", b"abc"), draft.any_of(b"bcd", b"cd", b"d")
        draft.lens_join(draft.copy(left), draft.copy(right))
        self.assert_clash(draft, 7, b"abcd", ends=(1, 2))

    def test_a_join_of_the_sheet_alone(self) -> None:
        draft = Draft()
        nought, one, x, xx = [draft.word(text) for text in (b"0", b"1", b"x", b"xx")]
        lens = draft.lens_union(draft.const(nought, x, nought), draft.const(one, xx, one))
        draft.lens_join(lens, lens)
        self.assert_clash(draft, 8, b"xxx", ends=(1, 2))

    def test_a_union_of_sets(self) -> None:
        """They share e, f and y, and e is in the second pair of each. The operands are not in order."""
        draft = Draft()
        low, high = draft.copy(draft.set(b"xz", b"cf")), draft.copy(draft.set(b"qr", b"eh", b"yy"))
        draft.lens_union(high, low)
        self.assert_clash(draft, 9, b"e", arms=(high, low))

    def test_a_repeat(self) -> None:
        draft = Draft()
        draft.lens_repeat(draft.copy(draft.any_of(b"ab", b"c", b"abc")))
        self.assert_clash(draft, 10, b"abc", ends=(2, 3))

    def test_parts_that_may_be_empty(self) -> None:
        source, sheet = Draft(), Draft()
        source.lens_repeat(source.copy(source.repeat(source.word(b"a"))))
        letter, nothing = sheet.word(b"a"), sheet.word(b"")
        sheet.lens_repeat(sheet.const(letter, nothing, letter))
        self.assert_clash(source, 10, b"", ends=(0, 0))
        self.assert_clash(sheet, 11, b"", ends=(0, 0))

    def test_a_zero_byte_is_a_byte(self) -> None:
        draft = Draft()
        draft.lens_repeat(draft.copy(draft.some(draft.range(b"\x00", b"\xff"))))
        self.assert_clash(draft, 10, b"\x00\x00", ends=(1, 2))

    def test_a_text_longer_than_any_source(self) -> None:
        """Between c and d stand n times a, n being 0 modulo 59 and 1 modulo 60; behind de as many before the f."""
        draft = Draft()
        one = draft.row(draft.any_of(b"c", b"e"), draft.repeat(draft.word(b"a" * 59)), draft.any_of(b"", b"f"))
        many = draft.join(draft.word(b"a"), draft.repeat(draft.word(b"a" * 60)))
        other = draft.row(draft.any_of(b"c", b"de"), many, draft.any_of(b"d", b"f"))
        draft.lens_repeat(draft.copy(draft.union(one, other)))
        run = b"a" * (59 * 59)
        self.assert_clash(draft, 10, b"c" + run + b"de" + run + b"f", ends=(3482, 3483))

    def test_none(self) -> None:
        self.assertIsNone(clash(K))
        self.assertIsNone(clash(arms(b"M", b"N")))

    def test_the_room_for_the_text(self) -> None:
        """The module always lends 16,512 bytes, so this asks the library itself."""
        draft = Draft()
        draft.lens_repeat(draft.copy(draft.any_of(b"ab", b"c", b"abc")))
        table, node = draft.table(), draft.last
        shown, refused = (1, 10, node, 3, 2, 3), (2, 17, 0, 0, 0, 0)
        for room, numbers, text in (4, shown, b"abc-"), (3, shown, b"abc"), (2, refused, b"--"):
            out = ctypes.create_string_buffer(b"-" * room, room)
            answer = noontrough._library().noontrough_clash(table, len(table), out, room)
            self.assertEqual(tuple(getattr(answer, name) for name, _ in answer._fields_), numbers)
            self.assertEqual(out.raw, text)

    def test_on_another_thread(self) -> None:
        with mock.patch.object(noontrough, "_stack_here", return_value=0):
            self.assertEqual(clash(arms(b"M", b"M")).text, b"M")
            self.assert_refused(1, 0, clash, b"")

    def test_a_copy_of_it(self) -> None:
        found = clash(arms(b"M", b"M"))
        for other in pickle.loads(pickle.dumps(found)), copy.copy(found):
            self.assertEqual((other, other.text, other.arms, other.ends), (found, b"M", (2, 3), None))


class Metrics(Calls):
    """Adobe's metrics in and out, by hand from document 02's request."""

    def assert_afm_refused(self, number: int, node: int, call: Callable, text: bytes) -> None:
        with self.assertRaises(Refusal) as caught:
            call(text)
        refusal = caught.exception
        self.assertEqual((refusal.number, refusal.node), (number, node))
        self.assertEqual(refusal.sentence, noontrough.AFM_SENTENCES[number])
        self.assertEqual(str(refusal), f"refused {number} {node}: {refusal.sentence}")

    def section(self, *lines: bytes) -> bytes:
        """With these lines between the first and the last, and their number."""
        return b"".join(line + b"\n" for line in (b"StartKernPairs %d" % len(lines), *lines, b"EndKernPairs"))

    def test_both_ways(self) -> None:
        section = self.section(b"KPX A V -80", b"KPX T comma -110")
        self.assertEqual(afm_import(section), b"A;V;-80\nT;comma;-110\n")
        self.assertEqual(afm_import(section.replace(b" ", b"   ")), b"A;V;-80\nT;comma;-110\n")
        self.assertEqual(afm_export(b"A;V;-80\nT;comma;-110\n"), section)

    def test_no_pairs(self) -> None:
        self.assertEqual(afm_export(b""), b"StartKernPairs 0\nEndKernPairs\n")
        self.assertEqual(afm_import(b"StartKernPairs 0\nEndKernPairs\n"), b"")

    def test_the_example(self) -> None:
        section, sheet, edited, result = [
            (ROOT / "examples/afm" / name).read_bytes() for name in ("section", "sheet", "edited", "result")
        ]
        self.assertEqual((afm_import(section), afm_export(edited), afm_import(result)), (sheet, result, edited))

    def test_values_and_names(self) -> None:
        for value in b"0", b"-1", b"32767", b"-32768":
            self.assertEqual(afm_import(self.section(b"KPX A V " + value)), b"A;V;" + value + b"\n")
        for value in b"32768", b"-32769", b"-0", b"+1", b"007", b"1.5", b"x", b"1" * 65000:
            self.assert_afm_refused(18, 3, afm_import, self.section(b"KPX A V 1", b"KPX A V " + value))
            self.assert_afm_refused(18, 2, afm_export, b"A;V;1\nA;V;" + value + b"\n")
        longest = b"n" * 63
        self.assertEqual(afm_export(longest + b";V;1\n"), self.section(b"KPX " + longest + b" V 1"))
        for name in longest + b"n", b"A;B", b"", b"\xc4", b"A\t", b"\x00":
            self.assert_afm_refused(18, 1, afm_export, name + b";V;1\n")

    def test_lines(self) -> None:
        pair = b"KPX A V -80"
        for number, text in (
            (1, b""), (2, b"StartKernPairs 0\n"), (2, b"StartKernPairs 0\nEndKernPairs"), (1, b"StartKernPairs 65536\n"),
            (3, b"StartKernPairs 0\nEndKernPairs\n\n"), (2, self.section(b"KPX\tA V -80")), (2, self.section(pair + b"\r")),
            (3, self.section(pair, b" " + pair)), (3, self.section(pair, pair + b" ")), (3, self.section(pair, b"")),
        ):
            with self.subTest(text):
                self.assert_afm_refused(18, number, afm_import, text)

    def test_the_count(self) -> None:
        self.assert_afm_refused(19, 0, afm_import, b"StartKernPairs 2\nKPX A V -80\nEndKernPairs\n")
        self.assert_afm_refused(18, 3, afm_import, b"StartKernPairs 2\nKPX A V -80\nEndKernPairs \n")

    def test_long_texts(self) -> None:
        most = b"A;V;1\n" * 6550
        self.assertEqual(afm_export(most), self.section(*[b"KPX A V 1"] * 6550))
        self.assertEqual(afm_import(afm_export(most)), most)
        self.assert_afm_refused(16, 0, afm_export, most + b"A;V;1\n")
        self.assert_afm_refused(18, 10923, afm_export, b"A;V;1\n" * 10922 + b"A;V")
        for call in afm_import, afm_export:
            self.assert_afm_refused(12, 0, call, b"x" * 65536)
            self.assert_afm_refused(18, 1, call, b"x" * 65535)
        self.assertEqual(afm_import(b"StartKernPairs" + b" " * 65506 + b"0\nEndKernPairs\n"), b"")

    def test_the_room_for_the_result(self) -> None:
        """The module always lends 65,535 bytes, so this asks the library itself."""
        section, sheet = self.section(b"KPX A V -80"), b"A;V;-80\n"
        library = noontrough._library()
        for function, text, result in (
            (library.noontrough_afm_import, section, sheet), (library.noontrough_afm_export, sheet, section),
        ):
            for room, number in (len(result) + 1, 0), (len(result), 0), (len(result) - 1, 16):
                out = ctypes.create_string_buffer(b"-" * room, room)
                answer = function(text, len(text), out, room)
                length = 0 if number else len(result)
                self.assertEqual((answer.number, answer.node, answer.length), (number, 0, length))
                self.assertEqual(out.raw, (result[:length] + b"-" * room)[:room])

    def test_what_may_be_handed_over(self) -> None:
        section, sheet = self.section(b"KPX A V -80"), b"A;V;-80\n"
        for kind in bytes, bytearray, memoryview:
            self.assertEqual((afm_import(kind(section)), afm_export(kind(sheet))), (sheet, section))
        self.assertIs(type(afm_import(bytearray(section))), bytes)
        for name, call in ("section", afm_import), ("sheet", afm_export):
            with self.assertRaisesRegex(TypeError, f"^{name} is a str, and the engine takes bytes"):
                call("")
            with self.assertRaisesRegex(TypeError, f"^{name} must be bytes-like, not int$"):
                call(5)

    def test_on_any_thread(self) -> None:
        """No other thread is started, whatever stack this one has."""
        with mock.patch.object(noontrough, "_stack_here", return_value=0), \
                mock.patch.object(noontrough, "_on_a_thread", side_effect=AssertionError("a thread was started")):
            self.assertEqual(afm_import(afm_export(b"A;V;-80\n")), b"A;V;-80\n")

    def test_a_refusal_comes_back_with_its_own_words(self) -> None:
        for number in noontrough.AFM_SENTENCES:
            refusal = Refusal(number, 7, noontrough.AFM_SENTENCES)
            for other in pickle.loads(pickle.dumps(refusal)), copy.copy(refusal):
                self.assertEqual((other.number, other.node, str(other)), (number, 7, str(refusal)))


def arms(last: bytes, first: bytes) -> bytes:
    """A union of two ranges of capitals, the one up to a letter and the other from one on."""
    draft = Draft()
    early, late = draft.range(b"A", last), draft.range(first, b"Z")
    draft.lens_union(draft.copy(early), draft.copy(late))
    return draft.table()


class Refusals(Calls):
    """Every refusal, by the examples of docs/GUIDE.md."""

    def assert_program_refused(self, number: int, node: int, draft: Draft) -> None:
        """Every call checks the program first, whatever the texts are; a clash shows why, or refuses too."""
        table, long = draft.table(), b"\x00" * 5000
        if number in range(7, 12):
            found = clash(table)
            self.assertEqual((found.number, found.node, found.sentence), (number, node, noontrough.SENTENCES[number]))
        else:
            self.assert_refused(number, node, clash, table)
        self.assert_refused(number, node, check, table)
        self.assert_refused(number, node, get, table, long)
        self.assert_refused(number, node, put, table, long, long)
        self.assert_refused(number, node, create, table, long)

    def test_1_sizes(self) -> None:
        short = bytes([2, 0, 1, 0, 16, 0, 0, 1, 0, 0, 0])
        for table in b"", short, K + b"\n", K[:-1], b"\x00\x00\x00":
            self.assert_refused(1, 0, check, table)
            self.assert_refused(1, 0, clash, table)
        self.assertEqual(check(short + b"A"), 2)

    def test_2_unknown_kind(self) -> None:
        draft = Draft()
        letter = draft.range(b"A", b"Z")
        draft.add(99)
        draft.copy(letter)
        self.assert_program_refused(2, 1, draft)

    def test_3_ends_of_a_range_reversed(self) -> None:
        draft = Draft()
        draft.copy(draft.range(b"Z", b"A"))
        self.assert_program_refused(3, 0, draft)

    def test_3_pairs_of_a_set(self) -> None:
        reversed_later, too_many, outside = Draft(), Draft(), Draft()
        reversed_later.copy(reversed_later.set(b"az", b"ba"))
        too_many.copy(too_many.set(*[b"az"] * 33))
        outside.pool = b"aza"
        outside.copy(outside.add(5, 0, 0, 2))
        for draft in reversed_later, too_many, outside:
            self.assert_program_refused(3, 0, draft)

    def test_3_a_set_is_no_word(self) -> None:
        draft = Draft()
        nought, nothing = draft.set(b"00"), draft.word(b"")
        draft.const(nought, nothing, nought)
        self.assert_program_refused(3, 2, draft)

    def test_3_child_of_the_wrong_sort(self) -> None:
        draft = Draft()
        draft.repeat(draft.copy(draft.range(b"A", b"Z")))
        self.assert_program_refused(3, 2, draft)

    def test_3_the_default_is_no_word(self) -> None:
        draft = Draft()
        digit, nought = draft.range(b"0", b"9"), draft.range(b"0", b"0")
        draft.const(digit, draft.word(b""), nought)
        self.assert_program_refused(3, 3, draft)

    def test_3_root_is_no_lens(self) -> None:
        draft = Draft()
        letter = draft.range(b"A", b"Z")
        draft.copy(letter)
        draft.repeat(letter)
        self.assert_program_refused(3, 2, draft)

    def test_4_match_in_match(self) -> None:
        draft = Draft()
        inner = draft.match(draft.key(draft.range(b"A", b"Z")))
        line = draft.lens_join(inner, draft.copy_word(b";"))
        draft.lens_repeat(draft.match(line))
        self.assert_program_refused(4, 6, draft)

    def test_5_too_large(self) -> None:
        draft = Draft()
        long = draft.word(b"0123456789" * 6 + b"0123")
        draft.copy(draft.join(long, draft.join(long, long)))
        self.assert_program_refused(5, 2, draft)

    def test_6_default(self) -> None:
        draft = Draft()
        some = draft.some(draft.range(b"0", b"9"))
        nothing = draft.word(b"")
        draft.const(some, nothing, nothing)
        self.assert_program_refused(6, 4, draft)

    def test_7_source_of_a_join(self) -> None:
        draft = Draft()
        letters = draft.repeat(draft.range(b"A", b"Z"))
        left, right = draft.key(letters), draft.copy(letters)
        draft.lens_join(left, right)
        self.assert_program_refused(7, 4, draft)

    def test_8_sheet_of_a_join(self) -> None:
        draft = Draft()
        letters = draft.repeat(draft.range(b"A", b"Z"))
        left, mark, nothing = draft.key(letters), draft.word(b","), draft.word(b"")
        comma, right = draft.const(mark, nothing, mark), draft.copy(letters)
        draft.lens_join(left, draft.lens_join(comma, right))
        self.assert_program_refused(8, 8, draft)

    def test_9_arms_of_a_union(self) -> None:
        draft = Draft()
        early, late = draft.range(b"A", b"M"), draft.range(b"M", b"Z")
        draft.lens_union(draft.copy(early), draft.copy(late))
        self.assert_program_refused(9, 4, draft)

    def test_10_source_of_a_repeat(self) -> None:
        draft = Draft()
        draft.lens_repeat(draft.copy(draft.some(draft.range(b"A", b"Z"))))
        self.assert_program_refused(10, 4, draft)

    def test_10_parts_may_be_empty(self) -> None:
        draft = Draft()
        draft.lens_repeat(draft.copy(draft.repeat(draft.word(b"a"))))
        self.assert_program_refused(10, 3, draft)

    def test_11_sheet_of_a_repeat(self) -> None:
        draft = Draft()
        name, digit = draft.some(draft.range(b"A", b"Z")), draft.range(b"0", b"9")
        label, nothing, nought = draft.key(name), draft.word(b""), draft.word(b"0")
        remark = draft.const(digit, nothing, nought)
        draft.lens_repeat(draft.lens_join(label, remark))
        self.assert_program_refused(11, 9, draft)

    def test_11_parts_are_empty(self) -> None:
        draft = Draft()
        letter, nothing = draft.word(b"a"), draft.word(b"")
        draft.lens_repeat(draft.const(letter, nothing, letter))
        self.assert_program_refused(11, 3, draft)

    def test_12_too_long(self) -> None:
        long = b"A;" * 2049
        self.assert_refused(12, 0, get, K, long)
        self.assert_refused(12, 0, put, K, b"A;", long)
        self.assert_refused(12, 0, put, K, long, b"A;")
        self.assert_refused(12, 0, create, K, long)

    def test_13_no_source(self) -> None:
        self.assert_refused(13, 0, get, K, b"AB1;\n")
        self.assert_refused(13, 0, get, K, b"[;")
        self.assert_refused(13, 0, put, K, b"AB;", b"ab1;")

    def test_14_no_sheet(self) -> None:
        self.assert_refused(14, 0, put, K, b"AB1;", SOURCE)
        self.assert_refused(14, 0, create, K, b"AB")

    def test_15_too_many_entries(self) -> None:
        self.assert_refused(15, 0, put, K, b"A;", b"A;" * 257)

    def test_16_result_too_long(self) -> None:
        self.assert_refused(16, 0, create, K, b"A;" * 2048)
        self.assertEqual(create(K, b"A;" * 1365), b"A0;" * 1365)

    def test_what_is_printed(self) -> None:
        with self.assertRaisesRegex(Refusal, r"^refused 14 0: The sheet is none of this program: correct what"):
            put(K, b"AB1;", SOURCE)

    def test_a_refusal_comes_back_from_another_process(self) -> None:
        refusal = pickle.loads(pickle.dumps(Refusal(9, 4)))
        self.assertEqual((refusal.number, refusal.node, refusal.sentence), (9, 4, noontrough.SENTENCES[9]))


class Words(unittest.TestCase):
    """What is written down here and elsewhere is the same."""

    def test_sentences_are_those_of_the_command_line(self) -> None:
        text = (ROOT / "crates/meanings/src/lib.rt").read_text("utf-8")
        table = re.search(r"const SENTENCES: \[&str; 19\] = \[\n(.*?)\n\];", text, re.DOTALL)
        assert table is not None
        found = re.findall(r'^    "(.*)\\n",$', table[1], re.MULTILINE)
        said = dict(enumerate(found, 1))
        self.assertEqual(list(said), list(range(1, 20)))
        self.assertEqual(noontrough.SENTENCES, said)

    def test_sentences_without_a_program_are_those_of_the_tool(self) -> None:
        text = (ROOT / "bindings/rust/src/afm.rs").read_text("utf-8")
        said = re.findall(r'^const \w+: &str =\s+"(.*)";$', text, re.MULTILINE)
        self.assertEqual(said, [noontrough.AFM_SENTENCES[number] for number in (12, 16)])
        self.assertEqual(list(noontrough.AFM_SENTENCES), [12, 16, 18, 19])
        for number in 18, 19:
            self.assertEqual(noontrough.AFM_SENTENCES[number], noontrough.SENTENCES[number])

    def test_sentence_1_names_the_command(self) -> None:
        self.assertEqual(
            noontrough.SENTENCES[1],
            "The sizes of the table are wrong, so it is no whole program: make it again with noontrough assemble,"
            " and copy it as binary.",
        )

    def test_numbers_are_those_of_the_header(self) -> None:
        header = (ROOT / "include/noontrough.h").read_text("utf-8")
        self.assertIn(f"#define NOONTROUGH_MAX_TEXT {noontrough.MAX_TEXT}\n", header)
        self.assertIn(f"#define NOONTROUGH_MAX_CLASH {noontrough.MAX_CLASH}\n", header)
        self.assertIn(f"#define NOONTROUGH_MAX_AFM {noontrough.MAX_AFM}\n", header)
        self.assertIn(f"#define NOONTROUGH_CLASH_STACK_BYTES ({noontrough._CLASH_STACK // 1024} * 1024)\n", header)
        self.assertIn(f"#define NOONTROUGH_STACK_BYTES ({noontrough._WRITE_STACK // 1024} * 1024)\n", header)
        self.assertIn(f"#define NOONTROUGH_READ_STACK_BYTES ({noontrough._READ_STACK // 1024} * 1024)\n", header)

    def test_answers_are_those_of_the_header(self) -> None:
        header = (ROOT / "include/noontrough.h").read_text("utf-8")
        structs = dict(re.findall(r"struct (\w+) \{(.*?)\};", header, re.DOTALL))
        names = {name: struct for struct, name in re.findall(r"^struct (\w+) (noontrough_\w+)\(", header, re.MULTILINE)}
        self.assertEqual(set(names), set(noontrough._FUNCTIONS))
        for name, (_, answer) in noontrough._FUNCTIONS.items():
            fields = re.findall(r"uint64_t (\w+);", structs[names[name]])
            offsets = [getattr(answer, field).offset for field in fields]
            self.assertEqual(offsets, [8 * place for place in range(len(fields))], name)
            self.assertEqual(ctypes.sizeof(answer), 8 * len(fields), name)


class Arguments(Calls):
    """What may be handed to a call."""

    def test_bytes_like(self) -> None:
        for kind in bytes, bytearray, memoryview:
            with self.subTest(kind.__name__):
                table, sheet, source = [kind(text) for text in (K, b"C;AB;", SOURCE)]
                self.assertEqual(check(table), 15)
                self.assertEqual(get(table, source), b"AB;C;")
                self.assertEqual(put(table, sheet, source), b"C22;AB1;")
                self.assertEqual(create(table, sheet), b"C0;AB0;")
                self.assertIsNone(clash(table))

    def test_results_are_bytes(self) -> None:
        self.assertIs(type(get(bytearray(K), bytearray(SOURCE))), bytes)

    def test_parts_that_do_not_lie_together(self) -> None:
        spread = bytearray(2 * len(SOURCE))
        spread[::2] = SOURCE
        self.assertEqual(get(K, memoryview(spread)[::2]), b"AB;C;")
        self.assertEqual(get(K, memoryview(SOURCE[::-1])[::-1]), b"AB;C;")

    def test_arrays_and_classes_of_bytes(self) -> None:
        class Text(bytes):
            pass

        self.assertEqual(get(array.array("B", K), Text(SOURCE)), b"AB;C;")

    def test_empty(self) -> None:
        for empty in b"", bytearray(), memoryview(b""):
            self.assertEqual(get(K, empty), b"")
            self.assertEqual(put(K, empty, empty), b"")
            self.assertEqual(create(K, empty), b"")
            self.assert_refused(1, 0, check, empty)

    def test_arguments_stay_as_they_are(self) -> None:
        sheet, source = bytearray(b"C;AB;"), bytearray(SOURCE)
        put(K, sheet, source)
        self.assertEqual((sheet, source), (b"C;AB;", SOURCE))
        source.append(0)  # and no call holds on to them

    def test_str_is_told_what_to_do(self) -> None:
        told = "is a str, and the engine takes bytes: encode it, or read the file in binary"
        calls = [
            ("table", lambda: check("A")),
            ("table", lambda: clash("A")),
            ("source", lambda: get(K, "AB1;")),
            ("sheet", lambda: put(K, "AB;", SOURCE)),
            ("source", lambda: put(K, b"AB;", "AB1;")),
            ("sheet", lambda: create(K, "")),
        ]
        for name, call in calls:
            with self.assertRaisesRegex(TypeError, f"^{name} {told}"):
                call()

    def test_other_types(self) -> None:
        for value in None, 65, [65, 59], Path("source"):
            with self.assertRaisesRegex(TypeError, f"^source must be bytes-like, not {type(value).__name__}$"):
                get(K, value)


class Threads(Calls):
    """Calls at the same time, and on small stacks."""

    def test_calls_at_the_same_time(self) -> None:
        wrong: List[bytes] = []

        def work(letter: bytes) -> None:
            source = b"".join(letter * length + b"%d;" % length for length in range(1, 40))
            sheet = b"".join(letter * length + b";" for length in range(39, 0, -1))
            result = b"".join(letter * length + b"%d;" % length for length in range(39, 0, -1))
            wrong.extend(found for found in (put(K, sheet, source) for _ in range(100)) if found != result)
            finished.append(letter)

        finished: List[bytes] = []
        threads = [threading.Thread(target=work, args=(bytes([letter]),)) for letter in b"ABCDEFGH"]
        for thread in threads:
            thread.start()
        for thread in threads:
            thread.join()
        self.assertEqual((wrong, len(finished)), ([], 8))

    def test_small_threads(self) -> None:
        self.assert_calls_come_back(stack=256)

    def test_small_threads_at_the_same_time(self) -> None:
        self.assert_calls_come_back(stack=256, threads=8)

    def test_threads_that_are_too_small_for_put(self) -> None:
        self.assert_calls_come_back(stack=1024)

    def test_threads_that_are_just_large_enough_for_get(self) -> None:
        self.assert_calls_come_back(stack=4096 + 704)

    def test_threads_that_are_just_large_enough(self) -> None:
        self.assert_calls_come_back(stack=4096 + 1840 + 64)

    def test_deep_in_the_frames_of_the_caller(self) -> None:
        """Sorting inside of sorting fills over 1 MiB of the thread's stack before the calls are made."""
        for stack in 2400, 3072, 4096, 4096 + 704, 4096 + 1840 + 64:
            self.assert_calls_come_back(stack, work="deep(300)")

    def test_default_stacks(self) -> None:
        self.assert_calls_come_back(stack=0, threads=2)

    def test_small_main_thread(self) -> None:
        """512 KiB for the main thread, and as much for the threads that are started without a size."""
        self.assert_calls_come_back(stack=0, main="run()", limit="ulimit -s 512")

    def test_main_thread_without_a_limit(self) -> None:
        self.assert_calls_come_back(stack=0, main="run()", limit="ulimit -s unlimited || true")

    def assert_calls_come_back(
        self, stack: int, threads: int = 1, work: str = "run()", main: str = "", limit: str = "true"
    ) -> None:
        """Makes all calls of the programs that take most stack, on threads of so many KiB.

        It is done in a process of its own, since a call that finds too little ends it.
        """
        script = f"""
import sys, threading
sys.path[:0] = {[str(PACKAGE), str(TESTS)]!r}
import noontrough, tables

def run():
    for program in tables.large_programs():
        assert noontrough.check(program.table) == 96, program.name
        assert noontrough.get(program.table, program.result), program.name
        assert noontrough.put(program.table, program.sheet, program.source) == program.result, program.name
        assert noontrough.create(program.table, program.sheet), program.name
        assert noontrough.clash(program.table) is None, program.name
    assert len(noontrough.clash(tables.full_and_ambiguous()).text) == 254
    print("came back")

sys.setrecursionlimit(10000)

def deep(levels):
    sorted([levels], key=lambda _: deep(levels - 1) if levels else run())

{main}
threading.stack_size({stack} * 1024)
started = [threading.Thread(target=lambda: {work}) for _ in range({threads})]
for thread in started:
    thread.start()
for thread in started:
    thread.join()
assert threading.stack_size(0) == {stack} * 1024, "the size for new threads was not put back"
"""
        command = ["sh", "-c", f'{limit} && exec "$@"', "sh", sys.executable, "-c", script]
        done = subprocess.run(command, stdout=subprocess.PIPE, stderr=subprocess.PIPE)
        said = done.stderr.decode("utf-8", "replace")
        self.assertEqual(done.returncode, 0, f"the process ended with {done.returncode}; -11 is a stack overflow: {said}")
        self.assertEqual(said, "")
        self.assertEqual(done.stdout.decode("ascii").count("came back"), threads + bool(main))

    def test_a_large_stack_needs_no_other_thread(self) -> None:
        def work() -> None:
            with mock.patch.object(noontrough, "_on_a_thread", side_effect=AssertionError("a thread was started")):
                results.append(put(K, b"C;AB;", SOURCE))

        results: List[bytes] = []
        before = threading.stack_size(16 * 1024 * 1024)
        try:
            thread = threading.Thread(target=work)
            thread.start()
        finally:
            threading.stack_size(before)
        thread.join()
        self.assertEqual(results, [b"C22;AB1;"])

    def test_unknown_stack(self) -> None:
        with mock.patch.object(noontrough, "_stack_here", return_value=0):
            self.assertEqual(put(K, b"C;AB;", SOURCE), b"C22;AB1;")
            self.assert_refused(13, 0, get, K, b"[;")

    def test_a_failure_on_the_other_thread_is_told(self) -> None:
        def fail() -> None:
            raise MemoryError("none left")

        with self.assertRaisesRegex(MemoryError, "none left"):
            noontrough._on_a_thread(fail)

    def test_this_thread_has_a_size(self) -> None:
        self.assertGreater(noontrough._find_stack(), 0)


class Library(unittest.TestCase):
    """How the library is found, and what is said where it is not."""

    def call_with(self, package: Path, named: Optional[str] = None) -> str:
        """Makes a call in a process of its own, by that folder's module, and gives what it prints."""
        script = "import noontrough\ntry: print(noontrough.check(b''))\nexcept Exception as e: print(type(e).__name__, e)"
        environment = {name: value for name, value in os.environ.items() if name != "NOONTROUGH_LIBRARY"}
        if named is not None:
            environment["NOONTROUGH_LIBRARY"] = named
        command = [sys.executable, "-c", script]
        done = subprocess.run(
            command, cwd=package, env=environment, stdout=subprocess.PIPE, stderr=subprocess.STDOUT
        )
        return done.stdout.decode("utf-8").strip()

    def setUp(self) -> None:
        folder = tempfile.TemporaryDirectory()
        self.addCleanup(folder.cleanup)
        self.folder = Path(folder.name).resolve()
        (self.folder / "noontrough").mkdir()
        shutil.copy(PACKAGE / "noontrough/__init__.py", self.folder / "noontrough")

    def test_missing_beside_the_script(self) -> None:
        (self.folder / "build").touch()
        missing = self.folder / "noontrough/libnoontrough.so"
        self.assertEqual(
            self.call_with(self.folder),
            f"ImportError The engine's shared library is missing: {missing}."
            f" Build it with this command: {self.folder / 'build'}",
        )

    def test_missing_where_it_was_installed(self) -> None:
        missing = self.folder / "noontrough/libnoontrough.so"
        self.assertEqual(
            self.call_with(self.folder),
            f"ImportError The engine's shared library is missing: {missing}. Run bindings/python/build in the repository"
            " and install the module again, or name a library in NOONTROUGH_LIBRARY.",
        )

    def test_missing_where_it_is_named(self) -> None:
        missing = str(self.folder / "other.so")
        self.assertEqual(
            self.call_with(PACKAGE, missing),
            f"ImportError The engine's shared library is missing: {missing}. NOONTROUGH_LIBRARY names it:"
            " correct that, or unset it to use the library beside the module.",
        )

    def test_named(self) -> None:
        library = noontrough._library()._name
        self.assertRegex(self.call_with(self.folder, library), "^Refusal refused 1 0: ")

    def test_an_empty_name_is_none(self) -> None:
        shutil.copy(noontrough._library()._name, self.folder / "noontrough/libnoontrough.so")
        self.assertRegex(self.call_with(self.folder, ""), "^Refusal refused 1 0: ")

    def test_no_library(self) -> None:
        other = self.folder / "other.so"
        other.write_bytes(b"no library")
        self.assertRegex(self.call_with(PACKAGE, str(other)), "^ImportError The engine's shared library can't be used: ")

    def test_another_library(self) -> None:
        other = str(self.folder / "other.so")
        subprocess.run(["cc", "-shared", "-o", other, "-x", "c", os.devnull], check=True)
        self.assertRegex(self.call_with(PACKAGE, other), "^ImportError .* can't be used: .*noontrough_check")


class Example(unittest.TestCase):
    """example.py, with what comes of it by hand from examples/kerning."""

    #: L;quoteright moved above A;V with the remark above it, and its empty line; A;W went with its remark; V;A is
    #: new, with one blank and no remark; T;comma has another value, and its padding and remark.
    RESULT = """\
# Noontrough Roman, 1000 units to the em
# kerning of 3 March

begin

# accented capitals kern as their letters do
@A = A Agrave Aacute Adieresis
@O = O Oacute Q C G  # Q since it lost its tail

# quotes stand off
L;quoteright 12

# seen at 7 pt by the night shift
A;V     -80
V;A -75
@A;Y    -95
T;comma -115  # not below -120
@O;T    -35
f.alt;l 0  # checked, leave it

# more after the proof
end
# 9 lines, checked by two readers
"""

    PRINTED = """\
Lines of the source that changed:
+ # quotes stand off
+ L;quoteright 12
+
- A;W     -60  # was -65
+ V;A -75
- T;comma -110  # not below -120
+ T;comma -115  # not below -120
-
- # quotes stand off
- L;quoteright 12
Entries: kept 8 made 1 dropped 1
"""

    def test_result(self) -> None:
        import example

        table, source = [(ROOT / "examples/kerning" / name).read_bytes() for name in ("program.table", "source")]
        edited = example.edit(get(table, source).decode("ascii")).encode("ascii")
        new = put(table, edited, source)
        self.assertEqual((new.decode("ascii"), new.tally), (self.RESULT, (8, 1, 1)))

    def test_printed(self) -> None:
        with tempfile.TemporaryDirectory() as elsewhere:
            done = subprocess.run(
                [sys.executable, str(PACKAGE / "example.py")],
                cwd=elsewhere,
                stdout=subprocess.PIPE,
                stderr=subprocess.STDOUT,
            )
        self.assertEqual(done.stdout.decode("utf-8"), self.PRINTED)
        self.assertEqual(done.returncode, 0)

    def test_printed_in_the_page(self) -> None:
        page = (PACKAGE / "README.md").read_text("utf-8")
        self.assertIn("".join(f"    {line}".rstrip() + "\n" for line in self.PRINTED.splitlines()), page)


if __name__ == "__main__":
    unittest.main()
