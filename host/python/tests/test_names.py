"""Names in descriptions: which describe takes, and what is said of the others."""
import array
import unittest

import tapermoss
from tapermoss import Drive, NameFault, NameRule, Refused

from .sample import malformed, named, sample

DRIVE = Drive.FLOPPY
LENGTH, CONTROL, RESERVED, FINAL_JOINT, DOTS = NameRule

GOOD = [b'a', b'x' * 80, b' ~', b'\x80\xff', b'.09;=?', b'>a', b'>>a', b'a>>b', b'.', b'..', b'.>a', b'..>a', b'a>.',
        b'a>..', b'a>...>b', b'letters>first.text']
BAD = {
    b'': (LENGTH, 0, b'\0', 'the name has no characters'),
    b'x' * 81: (LENGTH, 0, b'Q', 'the name has 81 characters, and 80 is the most'),
    b'ab\x1f': (CONTROL, 3, b'\x1f', 'character 3 of the name is a control character (31)'),
    b'\x7f/': (CONTROL, 1, b'\x7f', 'character 1 of the name is a control character (127)'),
    b'abcd<': (RESERVED, 5, b'<', 'character 5 of the name is "<", which no name may have'),
    b'/\x7f': (RESERVED, 1, b'/', 'character 1 of the name is "/", which no name may have'),
    b'sys:a': (RESERVED, 4, b':', 'character 4 of the name is ":", which no name may have'),
    b'a>': (FINAL_JOINT, 2, b'>', 'the name ends in ">"'),
    b'>>': (FINAL_JOINT, 2, b'>', 'the name ends in ">"'),
    b'a>.>b': (DOTS, 2, b'>.>', '">.>" stands at character 2 of the name'),
    b'abc>..>d': (DOTS, 4, b'>..>', '">..>" stands at character 4 of the name'),
    b'>.>..>': (DOTS, 1, b'>.>', '">.>" stands at character 1 of the name'),
    b'x' * 77 + b'>.>': (DOTS, 78, b'>.>', '">.>" stands at character 78 of the name'),
}


class Names(unittest.TestCase):
    def refused(self, number, image, description, s=1, f=2):
        before = bytes(image)
        with self.assertRaises(Refused) as caught:
            tapermoss.describe(image, DRIVE, s, f, description)
        self.assertEqual((caught.exception.number, caught.exception.block), (number, 0))
        self.assertEqual(image, before)
        return caught.exception

    def test_good_names_are_set(self):
        image = sample(DRIVE)
        for name in GOOD:
            with self.subTest(name=name):
                self.assertIsNone(tapermoss.name(named(name)))
                self.assertEqual(tapermoss.describe(image, DRIVE, 1, 2, named(name)), 1)
                self.assertEqual(tapermoss.description(image, DRIVE, 1, 2), named(name))

    def test_bad_names_are_refused_with_their_fault(self):
        image = sample(DRIVE)
        for name, (*fault, sentence) in BAD.items():
            with self.subTest(name=name):
                found = tapermoss.name(named(name))
                self.assertIs(type(found), NameFault)
                self.assertEqual(found, tuple(fault))
                self.assertEqual(str(found), sentence)
                refusal = self.refused(12, image, named(name))
                self.assertEqual((refusal.fault, str(refusal)), (found, f'refused (12): {sentence}'))

    def test_what_stands_past_the_length_is_no_part_of_the_name(self):
        for behind in (b'<', b'/', b':', b'\0', b'\x7f', b'>', b'.>', b'..>'):
            for name in (b'a', b'>.', b'>..'):
                description = bytearray(named(name + behind))
                description[22] = len(name)
                self.assertIsNone(tapermoss.name(description))
        # A length that cannot be is not looked past.
        self.assertEqual(tapermoss.name(bytes([255]) * 104), (LENGTH, 0, b'\xff'))

    def test_the_order_of_the_refusals(self):
        bad = named(b'a/b')
        self.refused(1, sample(DRIVE)[:600], bad)
        self.refused(2, sample(DRIVE), bad, s=2)
        self.refused(3, sample(DRIVE), bad[:103])
        self.refused(12, malformed(DRIVE), bad)
        self.refused(12, sample(DRIVE), bad, f=9)
        self.refused(6, sample(DRIVE), named(b'a'), f=9)

    def test_a_description_of_another_length_is_refused_by_3(self):
        for length in (0, 1, 103, 105, 512):
            with self.subTest(length=length), self.assertRaises(Refused) as caught:
                tapermoss.name(bytes(length))
            self.assertEqual((caught.exception.number, caught.exception.fault), (3, None))

    def test_a_description_is_any_object_that_lends_its_bytes(self):
        description = named(b'ab>..>')
        things = [description, bytearray(description), array.array('H', description), memoryview(description),
                  memoryview(description).cast('H'), memoryview(bytes(9) + description)[9:]]
        for thing in things:
            with self.subTest(kind=type(thing).__name__):
                self.assertEqual(tapermoss.name(thing), (DOTS, 3, b'>..>'))
