"""Images beside a plain list of rows."""

import random
import unittest
from ipaddress import IPv4Address, IPv4Network

import tuhvondi
from tuhvondi import Image, Kind, Row


def random_prefix(draw):
    length = draw.choice([0, 1, 4, 7, 8, 9, 12, 16, 19, 20, 24, 31, 32])
    bits = draw.choice([0, 0x0A000000, 0x0A010000, 0xC0000200, 0xFFFFFFFF, draw.getrandbits(32)])
    return IPv4Network((bits >> (32 - length) << (32 - length) if length else 0, length))


def random_row(draw):
    kind = draw.choice(list(Kind))
    prefix = random_prefix(draw)
    if kind == Kind.VIA:
        return Row.via(prefix, draw.randrange(32), draw.randrange(65536))
    return Row(prefix, kind)


def longest(rows, address):
    covering = [row for prefix, row in rows.items() if address in prefix]
    return max(covering, key=lambda row: row.prefix.prefixlen, default=None)


class Images(unittest.TestCase):
    def test_answers_are_the_longest_match(self):
        draw = random.Random(1)
        for _ in range(20):
            rows = {row.prefix: row for row in (random_row(draw) for _ in range(draw.randrange(60)))}
            with Image(rows.values()) as image:
                for _ in range(5):
                    self.compare(draw, image, rows)
                    changed = [random_row(draw) for _ in range(draw.randrange(10))]
                    rows.update((row.prefix, row) for row in changed)
                    image.apply(changed)
                    gone = draw.sample(sorted(rows), min(len(rows), 3))
                    image.remove([*gone, *gone])
                    for prefix in gone:
                        del rows[prefix]

    def compare(self, draw, image, rows):
        addresses = [IPv4Address(draw.getrandbits(32)) for _ in range(50)]
        addresses += [prefix.broadcast_address for prefix in rows]
        answers = image.lookup_many(addresses)
        self.assertEqual(answers, [longest(rows, address) for address in addresses])
        self.assertEqual(list(image), [rows[prefix] for prefix in sorted(rows)])
        self.assertEqual(len(image), len(rows))

    def test_words_are_those_of_the_longest_match(self):
        draw = random.Random(2)
        for _ in range(20):
            rows = {row.prefix: row for row in (random_row(draw) for _ in range(draw.randrange(60)))}
            words = {prefix: draw.choice([None, draw.randrange(2 ** 32 - 1)]) for prefix in rows}
            with Image(rows.values()) as image:
                self.assertEqual(image.lookup_words(["10.0.0.1"]), [None])
                for _ in range(5):
                    worded = [prefix for prefix in rows if words[prefix] is not None]
                    image.apply([rows[prefix] for prefix in rows if words[prefix] is None])
                    image.apply([rows[prefix] for prefix in worded], words=[words[prefix] for prefix in worded])
                    self.compare_words(draw, image, rows, words)
                    gone = draw.sample(sorted(rows), min(len(rows), 3))
                    image.remove(gone)
                    for prefix in gone:
                        del rows[prefix], words[prefix]
                    for prefix in rows:
                        words[prefix] = draw.choice([None, 0, 2 ** 32 - 2])

    def compare_words(self, draw, image, rows, words):
        addresses = [IPv4Address(draw.getrandbits(32)) for _ in range(50)]
        addresses += [prefix.broadcast_address for prefix in rows]
        found = [longest(rows, address) for address in addresses]
        self.assertEqual(image.lookup_many(addresses), found)
        self.assertEqual(image.lookup_words(addresses), [row and words[row.prefix] for row in found])
        self.assertEqual(list(image.rows_and_words()), [(rows[prefix], words[prefix]) for prefix in sorted(rows)])

    def test_words_that_are_none(self):
        row = Row.local("10.0.0.0/8")
        for words in ([-1], [2 ** 32 - 1]):
            with self.assertRaises(ValueError):
                Image([row], words=words)
        image = Image([row], words=[1])
        for words in ([], [1, 2]):
            with self.assertRaises(tuhvondi.BadCount):
                image.apply([row], words=words)
        self.assertEqual((image.lookup_words(["10.0.0.1"]), image.generation), ([1], 0))

    def test_many_rows_are_listed(self):
        rows = [Row.via(IPv4Network((number << 8, 24)), number % 32) for number in range(1500)]
        image = Image(rows)
        self.assertEqual(list(image.rows()), rows)
        self.assertEqual(list(image.rows("0.0.4.0/24")), rows[4:])

    def test_of_two_rows_of_a_prefix_the_last_stays(self):
        image = Image([Row.local("10.0.0.0/8"), Row.unreachable("10.0.0.0/8")])
        self.assertEqual(list(image), [Row.unreachable("10.0.0.0/8")])

    def test_a_refused_call_changes_nothing(self):
        image = Image([Row.local("10.0.0.0/8")])
        with image.share() as other:
            changes = (lambda: image.apply([Row.local("0.0.0.0/0")]), lambda: other.remove(["10.0.0.0/8"]))
            for change in changes:
                with self.assertRaises(tuhvondi.Shared) as caught:
                    change()
                self.assertEqual((caught.exception.number, caught.exception.name), (9, "Shared"))
            self.assertEqual(list(other), [Row.local("10.0.0.0/8")])
        image.remove(["10.0.0.0/8"])
        self.assertEqual((len(image), image.generation), (0, 1))

    def test_an_image_lives_as_long_as_its_last_holder(self):
        image = Image([Row.local("10.0.0.0/8")])
        other = image.share()
        del image
        self.assertEqual(str(other.lookup("10.0.0.0")), "10.0.0.0/8 local")

    def test_closed(self):
        image = Image()
        image.close()
        image.close()
        for call in (lambda: image.size, lambda: image.lookup("1.2.3.4"), image.copy, image.share):
            with self.assertRaises(tuhvondi.EmptyHandle):
                call()

    def test_what_is_no_prefix_address_or_number(self):
        image = Image()
        for wrong in ("10.0.0.1/8", "10.0.0.0/33", "10.0.0/8", "", "::/0"):
            with self.assertRaises(ValueError):
                Row.local(wrong)
        for wrong in (-1, 2 ** 32, "10.0.0.256", "::1"):
            with self.assertRaises(ValueError):
                image.lookup(wrong)
        for generation in (-1, 2 ** 64):
            with self.assertRaises(ValueError):
                image.apply([], generation)
        for row in (Row.via("10.0.0.0/8", 256), Row.via("10.0.0.0/8", 1, 65536),
                    Row(IPv4Network("10.0.0.0/8"), Kind.VIA)):
            with self.assertRaises(ValueError):
                image.apply([row])
        image.apply([], 2 ** 64 - 1)
        self.assertEqual(image.generation, 2 ** 64 - 1)


if __name__ == "__main__":
    unittest.main()
