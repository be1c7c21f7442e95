"""An image with reserved bits in every LDA: it is read and changed as the same image without them, and keeps them."""
import unittest

import tapermoss
from tapermoss import RECORD, Drive, Refused, Summary

from .planted import planted
from .sample import content, sample, set_words, with_bits

#: Words of a record, header words counted: FreeHead and FreeTail, and in a file block its first entry and the last two
#: addresses.
HEAD, TAIL = 8, 10
FIRST, LAST, LAST_NEGATIVE = 8 + 52, 8 + 251, 8 + 254


def bits(image, block, word):
    """The reserved bits of the LDA that stands there."""
    return image[RECORD * block + 2 * word]


class LowBits(unittest.TestCase):
    def test_it_is_read_as_without_them(self):
        for drive in Drive:
            image = with_bits(sample(drive))
            self.assertNotEqual(image, sample(drive))
            self.assertEqual(tapermoss.check(image, drive, 1), Summary(1, 4, 34))
            self.assertEqual(list(tapermoss.files(image, drive, 1)), [2])
            self.assertEqual(tapermoss.whole_file(image, drive, 1, 2), content(0) + content(1) + content(2))
            self.assertEqual(tapermoss.show(image, drive, 1, 2, 2), content(2))

    def test_a_write_keeps_those_of_addresses_that_it_does_not_change(self):
        for drive in Drive:
            image = with_bits(sample(drive))
            before = bytes(image)
            self.assertEqual(tapermoss.write(image, drive, 1, 2, 3, b'x' * 512), 5)
            for block, word in ((1, TAIL), (2, FIRST), (2, LAST_NEGATIVE)):
                self.assertEqual(bits(image, block, word), bits(before, block, word))
                self.assertNotEqual(bits(image, block, word), 0)
            # FreeHead, the new entry and the last address name other blocks now.
            for block, word in ((1, HEAD), (2, FIRST + 2 * 3), (2, LAST)):
                self.assertEqual(bits(image, block, word), 0)
            self.assertEqual(tapermoss.check(image, drive, 1), Summary(1, 5, 33))

    def test_repair_keeps_those_of_the_free_chain(self):
        for drive in Drive:
            image = with_bits(sample(drive))
            sound = bytes(image)
            set_words(image, 1, 12, 7)
            with self.assertRaises(Refused) as caught:
                tapermoss.check(image, drive, 1)
            self.assertEqual(caught.exception.number, 5)
            tapermoss.repair(image, drive, 1)
            self.assertEqual(image[RECORD:2 * RECORD], sound[RECORD:2 * RECORD])

    def test_an_entry_that_is_not_nil_and_names_no_block_is_malformed(self):
        image = sample(Drive.FLOPPY)
        set_words(image, 2, FIRST + 2 * 3, 1)
        with self.assertRaises(Refused) as caught:
            tapermoss.check(image, Drive.FLOPPY, 1)
        self.assertEqual((caught.exception.number, caught.exception.block), (4, 2))

    def test_entries_of_directories_and_the_root(self):
        for drive in Drive:
            clean = planted(drive)
            image = bytearray(clean)
            # RootDirectoryID, the root's first two entries (those at 0 and 3 of block 3), and Mail's first.
            for block, word in ((1, 14), (3, 8 + 1), (3, 8 + 16 * 3 + 1), (7, 8 + 16 * 2 + 1)):
                image[RECORD * block + 2 * word] = 0xA5
            self.assertEqual(list(tapermoss.tree(image, drive, 1)), list(tapermoss.tree(clean, drive, 1)))
            for path in ('', 'Notes.txt', 'Mail', 'Mail>Memo', 'Mail>Lost', 'Gone', 'None'):
                expected = tapermoss.look_up(clean, drive, 1, path)
                self.assertEqual(tapermoss.look_up(image, drive, 1, path), expected)
            self.assertEqual(tapermoss.look_up(image, drive, 1, 'Mail>Memo').lbn, 8)
