"""The pictures: well formed, within their card and a page, with what is there in its place, and the rest counted."""

import base64
import copy
import pickle
import random
import re
import unittest
from xml.etree import ElementTree

from support import BLANKS, InFolder

import palhavento
from palhavento import Bucket, Cell, Trie
from palhavento.drawing import ADVANCE, MONO, QUIET, Picture, store_svg, trie_svg

SVG = "{http://www.w3.org/2000/svg}"
NINE = [(Bucket(0, "", "i ", 3), [("a", 5), ("and", 3), ("i", 9)]), (Bucket(3, "i ", "i", 2), [("in", 6), ("is", 8)]),
        (Bucket(2, "i", "o", 1), [("of", 2)]), (Bucket(1, "o", "", 3), [("that", 7), ("the", 1), ("to", 4)])]
NINE_TRIE = Trie(3, 0, [Cell("i", 0, ("cell", 1), ("cell", 2)), Cell(" ", 1, ("slot", 0), ("slot", 3)),
                        Cell("o", 0, ("slot", 2), ("slot", 1))])


# R14.12: the names in the order in which they are put, and the leaves from left to right.
MORE_WORDS = ("the of and to a in that is i it for as with was his he be not by but have you which are on or her had at "
              "from this").split()
MORE_LEAVES = [0, 9, 4, 10, 7, 8, 6, 3, 2, 1, 5]


def things(picture: str, kind: str) -> list[ElementTree.Element]:
    """The groups of one class, from a text that must be well formed."""
    return [group for group in ElementTree.fromstring(picture).iter(SVG + "g") if group.get("class") == kind]


def texts(group: ElementTree.Element) -> list[str]:
    return [text.text or "" for text in group.iter(SVG + "text")]


def bound_order(bound: str) -> bytes:
    return bound.encode().ljust(24, b"\xff")


def is_in(name: str, bucket: Bucket) -> bool:
    """Whether a name is in a bucket's range: R1.6 and R1.8."""
    def within(bound: str) -> bool:
        return name.ljust(24)[:len(bound)] <= bound
    return within(bucket.upper) and not (bucket.lower and within(bucket.lower))


def strings_of(chance: random.Random, most: int) -> list[str]:
    """So many strings in bound order: some bounds and all their beginnings."""
    strings: set[str] = set()
    while len(strings) < most:
        bound = "".join(chance.choice(" !<&z}") for _ in range(chance.choice((1, 2, 3, 24))))
        more = strings | {bound[:length] for length in range(1, len(bound) + 1)}
        strings = more if len(more) <= most else strings
    return sorted(strings, key=bound_order)


def rebuilt(strings: list[str], leaf: list[int]) -> Trie:
    """The trie of these strings, by section 6 of the rules, its leaves numbered from leaf[0]."""
    cells: list[Cell | None] = []

    def side(run: list[str]) -> tuple[str, int]:
        if not run:
            leaf[0] += 1
            return "slot", (leaf[0] - 1) % 64
        fewest = min(map(len, run))
        shortest = [place for place, string in enumerate(run) if len(string) == fewest]
        root = shortest[(len(shortest) - 1) // 2]
        number = len(cells)
        cells.append(None)
        left, right = side(run[:root]), side(run[root + 1:])
        cells[number] = Cell(run[root][-1], fewest - 1, left, right)
        return "cell", number

    side(strings)
    return Trie(len(cells), 0, cells)


def ends(text: ElementTree.Element) -> tuple[float, float, float, float]:
    """Left, right, top and bottom of a text, where it is as wide as the widest font of its kind."""
    x, y, size = (float(text.get(name)) for name in ("x", "y", "font-size"))
    # Of the other fonts a letter's usual width, as a part of the font's size.
    advance = ADVANCE if text.get("font-family", MONO) == MONO else 0.66 if text.get("font-weight") else 0.54
    long = advance * size * len(text.text or "")
    if text.get("transform"):
        return x, x + size, y, y + long
    left = x - long * {"middle": 0.5, "end": 1}.get(text.get("text-anchor"), 0)
    return left, left + long, y - size, y


class Pictures(unittest.TestCase):
    def assert_inside(self, picture: str) -> None:
        """The card fits a page, and nothing leaves it."""
        root = ElementTree.fromstring(picture)
        width, height = float(root.get("width")), float(root.get("height"))
        self.assertLessEqual(width, 1200)
        self.assertLessEqual(height, 1300)
        self.assertLess(len(picture), 150_000)
        for box in root.iter(SVG + "rect"):
            self.assertLessEqual(float(box.get("x")) + float(box.get("width")), width)
            self.assertLessEqual(float(box.get("y")) + float(box.get("height")), height)
        for line in root.iter(SVG + "line"):
            self.assertLessEqual(max(float(line.get("x1")), float(line.get("x2"))), width)
        for text in root.iter(SVG + "text"):
            left, right, top, bottom = ends(text)
            self.assertTrue(0 <= left and right <= width and 0 <= top and bottom <= height, text.text)

    def assert_apart(self, group: ElementTree.Element) -> None:
        """No text of a group is written over another, nor over a box that begins behind it."""
        placed = sorted(ends(text) for text in group.iter(SVG + "text"))
        for place, (_, right, top, bottom) in enumerate(placed):
            for left, _, other_top, other_bottom in placed[place + 1:]:
                if top < other_bottom and other_top < bottom:
                    self.assertLessEqual(right, left + 1, texts(group))
        load = min(float(path.get("d")[1:].split()[0]) for path in group.iter(SVG + "path"))
        for text in group.iter(SVG + "text"):
            left, right, _, _ = ends(text)
            self.assertTrue(right <= load or left > load, text.text)


class Store(Pictures):
    def test_the_nine_words(self):
        picture = store_svg(NINE, 4, 8, NINE_TRIE, 2)
        drawn = [texts(bucket) for bucket in things(picture, "bucket")]
        self.assertEqual([" ".join(said) for said in drawn], ["slot 0 a 5 and 3 i 9 3 of 4", "slot 3 in 6 is 8 2 of 4",
                                                              "slot 2 of 2 1 of 4", "slot 1 that 7 the 1 to 4 3 of 4"])
        said = texts(ElementTree.fromstring(picture))
        self.assertIn("i␣", said)
        self.assertIn("9 names in 4 buckets of up to 4", said)
        self.assertIn("version 2", said)
        self.assertIn("version 1", texts(ElementTree.fromstring(store_svg(NINE, 4, 8, NINE_TRIE, 1))))
        self.assertIn("Room for up to 23 more: 7 in these buckets and 16 in 4 free slots.", said)

    def test_a_bucket_is_full_where_a_further_name_is_refused(self):
        full = [(Bucket(1, "", "m", 2), [("a", 1), ("b", 2)]), (Bucket(0, "m", "", 1), [("n", 3)])]
        trie = Trie(1, 0, [Cell("m", 0, ("slot", 1), ("slot", 0))])
        refuses, splits = store_svg(full, 2, 2, trie, 2), store_svg(full, 2, 3, trie, 2)
        self.assertEqual([texts(bucket)[-1] for bucket in things(refuses, "bucket")], ["full", "1 of 2"])
        self.assertEqual([texts(bucket)[-1] for bucket in things(splits, "bucket")], ["2 of 2", "1 of 2"])
        self.assertIn("Orange: the next new name splits the bucket.", texts(ElementTree.fromstring(splits)))

    def test_every_blank_of_a_name_is_seen(self):
        entries = sorted((name, value) for value, name in enumerate(BLANKS))
        for slots, drawn in ((1, "GDP␣␣real"), (30, "1␣2")):
            contents = [(Bucket(slot, "", "", len(entries)), entries) for slot in range(slots)]
            picture = store_svg(contents, 16, 64, Trie(0, 0, []), 2)
            self.assert_inside(picture)
            bucket = things(picture, "bucket")[0]
            self.assert_apart(bucket)
            self.assertIn(drawn, texts(bucket))
            self.assertIn("\na␣b␣c␣d␣e␣f␣g␣h␣i␣j␣k␣l 7", bucket.find(SVG + "title").text)
            self.assertIn("␣ is a blank.", texts(ElementTree.fromstring(picture)))
        self.assertNotIn("is a blank", store_svg([(Bucket(0, "", "", 1), [("a", 1)])], 2, 1, Trie(0, 0, []), 2))

    def test_no_room_at_all(self):
        picture = store_svg([(Bucket(0, "", "", 2), [("a", 1), ("b", 2)])], 2, 1, Trie(0, 0, []), 2)
        self.assertEqual(repr(picture), "<Picture: 2 names in 1 bucket of up to 2; no more fit>")
        self.assertIn("Full: every new name is refused, as no slot is free.", texts(ElementTree.fromstring(picture)))

    def test_every_number_of_buckets(self):
        for number in range(1, 65):
            bounds = ["", *(f"{place:02}<&'\"> " for place in range(number - 1)), ""]
            names = [[(f"{place:02}<&{entry:02}", 10 ** entry) for entry in range(place % 17)] for place in range(number)]
            contents = [(Bucket(place, bounds[place], bounds[place + 1], len(own)), own) for place, own in enumerate(names)]
            picture = store_svg(contents, 16, 64, Trie(0, 0, []), 2)
            buckets = things(picture, "bucket")
            self.assertEqual(len(buckets), number)
            self.assert_inside(picture)
            heading, version = list(ElementTree.fromstring(picture).iter(SVG + "text"))[:2]
            self.assertLess(ends(heading)[1], ends(version)[0])
            for bucket, (_, entries) in zip(buckets, contents):
                self.assert_apart(bucket)
                self.assert_counted(bucket, entries)

    def test_the_longest_names_values_and_bounds(self):
        for b in range(2, 17):
            entries = [("}" * 23 + "abcdefghijklmnop"[place], 2**64 - 1) for place in range(b)]
            first = (Bucket(63, "", "}" * 24, b), entries)
            for others in (0, 1, 30, 63):
                contents = [first, *((Bucket(place, "}" * 24, "}" * 24, b), entries) for place in range(others))]
                picture = store_svg(contents, b, 64, Trie(0, 0, []), 2)
                self.assert_inside(picture)
                for bucket in things(picture, "bucket"):
                    self.assert_apart(bucket)
                    self.assert_counted(bucket, entries)

    def assert_counted(self, bucket: ElementTree.Element, entries: list[tuple[str, int]]) -> None:
        """A bucket shows its first entries, at least one, and the number of the others."""
        _, *said, _ = texts(bucket)
        if not entries:
            self.assertEqual(said, ["no names"])
            return
        rest = 0
        if len(said) % 2:
            # The one text that is grey.
            counted = next(text.text for text in bucket.iter(SVG + "text") if text.get("fill") == QUIET and text.text[0] == "+")
            said.remove(counted)
            rest = int(counted)
        shown = len(entries) - rest
        self.assertGreater(shown, 0)
        self.assertEqual(said, [word for name, value in entries[:shown] for word in (name, str(value))])


class Tries(Pictures):
    def test_the_nine_words(self):
        picture = trie_svg(NINE_TRIE)
        self.assertEqual([texts(leaf) for leaf in things(picture, "leaf")],
                         [["0", "i␣"], ["3", "i"], ["2", "o"], ["1", "empty"]])
        self.assertEqual([texts(cell) for cell in things(picture, "cell")], [["␣", "1"], ["i", "0"], ["o", "0"]])

    def test_no_cells(self):
        picture = trie_svg(Trie(0, 5, []))
        self.assertEqual([texts(leaf) for leaf in things(picture, "leaf")], [["5", "empty"]])
        self.assertEqual(things(picture, "cell"), [])

    def test_paths_are_the_strings_in_order(self):
        chance = random.Random(1)
        for most in (1, 7, 60, 256):
            ordered = strings_of(chance, most)
            picture = trie_svg(rebuilt(ordered, [0]), most_leaves=257, most_levels=256)
            self.assertEqual(len(things(picture, "cell")), most)
            paths = [texts(leaf)[1].replace("␣", " ") for leaf in things(picture, "leaf")]
            self.assertEqual(paths, [*ordered, "empty"])

    def test_a_large_trie_is_drawn_in_part_and_the_rest_counted(self):
        chance = random.Random(2)
        for most in (35, 36, 100, 256):
            picture = trie_svg(rebuilt(strings_of(chance, most), [0]))
            self.assert_inside(picture)
            leaves, parts = things(picture, "leaf"), things(picture, "part")
            self.assertEqual(len(leaves) + sum(int(texts(part)[0]) for part in parts), most + 1)
            self.assertLessEqual(len(leaves) + len(parts), 36)

    def test_the_deepest_trie(self):
        cells = [Cell(chr(0x7D - place % 90), 0, ("cell", place + 1), ("slot", 1)) for place in range(255)]
        trie = Trie(256, 0, [*cells, Cell("!", 0, ("slot", 0), ("slot", 1))])
        whole = trie_svg(trie, most_leaves=257, most_levels=256)
        self.assertEqual((len(things(whole, "cell")), len(things(whole, "leaf"))), (256, 257))
        picture = trie_svg(trie)
        self.assert_inside(picture)
        self.assertEqual([texts(part)[0] for part in things(picture, "part")], ["241"])
        self.assertIn("The deepest leaf is under 256 cells; there is room for no more cells.", texts(ElementTree.fromstring(picture)))

    def test_what_is_no_tree(self):
        for side in (("cell", 0), ("cell", 1), ("cell", -1)):
            with self.assertRaises(ValueError):
                trie_svg(Trie(1, 0, [Cell("a", 0, side, ("slot", 0))]))


class InANotebook(InFolder):
    def test_a_picture_is_an_svg_and_a_short_text(self):
        with palhavento.open(self.path) as store:
            for picture in (store.svg(), store.trie_svg()):
                self.assertTrue(picture.startswith("<svg "))
                self.assertEqual(picture._repr_svg_(), str(picture))
                self.assertRegex(repr(picture), r"^<Picture: [a-z0-9 :;]{10,60}>$")
                image = re.fullmatch(r'<img alt="[^"<&]*" src="data:image/svg\+xml;base64,(.*)">', picture._repr_html_())
                self.assertEqual(base64.b64decode(image[1], validate=True).decode(), picture)
                for same in (copy.copy(picture), pickle.loads(pickle.dumps(picture))):
                    self.assertEqual((type(same), same, repr(same)), (Picture, picture, repr(picture)))

    def test_a_store_is_an_svg_and_its_repr(self):
        with palhavento.open(self.path) as store:
            self.assertEqual(store._repr_svg_(), store.svg())
            self.assertEqual(store._repr_html_(), store.svg()._repr_html_())
        self.assertIsNone(store._repr_svg_())
        self.assertIsNone(store._repr_html_())
        with self.assertRaisesRegex(ValueError, "closed"):
            store.svg()

    def test_what_is_called_full_refuses_and_what_is_not_takes_a_name(self):
        with palhavento.open(self.path, b=2, slots=8, sync=False) as store:
            with self.assertRaises(palhavento.FileFull):
                for number in range(100):
                    store[f"r{number * 37 % 100:02}"] = number
            self.assertEqual(self.probed(store, palhavento.FileFull), {"full", "1 of 2"})

    def test_what_is_called_full_where_all_strings_are_in_use(self):
        with palhavento.open(self.path, b=2, slots=64, sync=False) as store:
            for letter in "abcdefghijklmnop":
                # Each letter takes as many strings as it can get.
                for length in range(23, 0, -1):
                    names = [letter * length + last for last in "123"]
                    try:
                        store.update(dict.fromkeys(names, 0))
                        break
                    except palhavento.TrieFull:
                        for name in names:
                            store.pop(name, None)
            self.assertEqual(store.stats().strings, 256)
            self.assertGreater(store.stats().free, 0)
            self.assertIn("full", self.probed(store, palhavento.TrieFull))
            self.assertIn("free slots, where a split needs no new string.", store.svg())

    def probed(self, store: palhavento.Store, refusal: type[Exception]) -> set[str]:
        """Try a new name in each bucket that is called full or has room; what the picture said of them all."""
        names = list(store)
        said = set()
        for bucket, drawn in zip(store.buckets(), things(store.svg(), "bucket")):
            said.add(texts(drawn)[-1])
            near = [bucket.lower, bucket.upper, *(name for name in names if is_in(name, bucket))]
            probes = {(beginning + last)[:24] for beginning in near for last in "!5z}"}
            for name in sorted(probe for probe in probes - set(names) if probe == probe.strip() and is_in(probe, bucket)):
                if texts(drawn)[-1] == "full":
                    with self.assertRaises(refusal):
                        store[name] = 0
                elif bucket.entries < store.b:
                    store[name] = 0
                    del store[name]
        return said

    def test_the_31_words(self):
        with palhavento.open(self.path, b=4, slots=16, sync=False, version=1) as store:
            store.update({name: 0 for name in MORE_WORDS})
            trie, buckets = store.trie_svg(), store.svg()
        self.assertEqual([int(texts(leaf)[0]) for leaf in things(trie, "leaf")], MORE_LEAVES)
        self.assertEqual([texts(bucket)[0] for bucket in things(buckets, "bucket")],
                         [f"slot {slot}" for slot in MORE_LEAVES])


if __name__ == "__main__":
    unittest.main()
