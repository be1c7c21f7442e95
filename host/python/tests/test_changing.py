"""The changing calls: example M12 with its cuts, every refusal, and all worked cases with their whole answers."""
import os
import struct
import unittest
import zlib

import tapermoss
from tapermoss import Drive, Refused, Summary

from .sample import malformed, sample, set_pair
from .worked import Call, cases, files

DRIVE = Drive.SHUGART12


def fresh():
    image = tapermoss.blank(DRIVE, 8, 1, 7)
    tapermoss.repair(image, DRIVE, 1)
    return image


class Changing(unittest.TestCase):
    def refused(self, number, call, *arguments, block=0):
        with self.assertRaises(Refused) as caught:
            call(*arguments)
        self.assertEqual((caught.exception.number, caught.exception.block), (number, block))

    def with_one_block(self):
        image = fresh()
        self.assertEqual(tapermoss.create(image, DRIVE, 1), (2, 3))
        self.assertEqual(tapermoss.write(image, DRIVE, 1, 2, 0, b'a' * 512), 4)
        return image

    def test_the_worked_example(self):
        image = self.with_one_block()
        self.assertEqual(tapermoss.write(image, DRIVE, 1, 2, 1, b'b' * 512), 5)
        self.assertEqual(tapermoss.check(image, DRIVE, 1), Summary(1, 3, 3))
        self.assertEqual(tapermoss.whole_file(image, DRIVE, 1, 2), b'a' * 512 + b'b' * 512)
        self.assertEqual(tapermoss.destroy(image, DRIVE, 1, 2), 4)
        self.assertEqual(tapermoss.check(image, DRIVE, 1), Summary(0, 0, 6))

    def test_a_cut_is_mended_by_repair(self):
        for limit in range(6):
            image = self.with_one_block()
            self.assertEqual(tapermoss.write(image, DRIVE, 1, 2, 1, b'b' * 512, limit), limit)
            tapermoss.repair(image, DRIVE, 1)
            expected = b'a' * 512 + (b'b' * 512 if limit >= 3 else b'')
            self.assertEqual(tapermoss.whole_file(image, DRIVE, 1, 2), expected)

    def test_describe(self):
        image = self.with_one_block()
        description = bytes(range(22)) + b'\x06>a>b.c' + bytes(range(75))
        self.assertEqual(tapermoss.describe(image, DRIVE, 1, 2, description, 0), 0)
        self.assertEqual(tapermoss.description(image, DRIVE, 1, 2), bytes(104))
        self.assertEqual(tapermoss.describe(image, DRIVE, 1, 2, description), 1)
        self.assertEqual(tapermoss.description(image, DRIVE, 1, 2), description)

    def test_refusals_change_nothing(self):
        image = self.with_one_block()
        before = bytes(image)
        self.refused(1, tapermoss.create, bytearray(), DRIVE, 1)
        self.refused(2, tapermoss.create, image, DRIVE, 2)
        self.refused(3, tapermoss.write, image, DRIVE, 1, 2, 1, bytes(511))
        self.refused(3, tapermoss.describe, image, DRIVE, 1, 2, bytes(103))
        self.refused(12, tapermoss.describe, image, DRIVE, 1, 3, bytes(104))
        self.refused(6, tapermoss.destroy, image, DRIVE, 1, 3)
        self.refused(7, tapermoss.write, image, DRIVE, 1, 2, 2, bytes(512))
        self.assertEqual(image, before)
        for r in (1, 2, 3):
            tapermoss.write(image, DRIVE, 1, 2, r, bytes(512))
        self.refused(8, tapermoss.write, image, DRIVE, 1, 2, 4, bytes(512))
        self.refused(8, tapermoss.create, image, DRIVE, 1)
        self.refused(4, tapermoss.repair, malformed(DRIVE), DRIVE, 1, block=2)
        unsound = sample(DRIVE)
        set_pair(unsound, 1, 12, 7)
        self.refused(5, tapermoss.create, unsound, DRIVE, 1)
        full = sample(DRIVE, n=7)
        set_pair(full, 1, 128, tapermoss.lbn_to_lda(DRIVE, 5))
        self.refused(9, tapermoss.repair, full, DRIVE, 1)

    def test_an_image_that_cannot_be_written_is_an_error(self):
        with self.assertRaises(BufferError):
            tapermoss.create(bytes(fresh()), DRIVE, 1)
        with self.assertRaises(OverflowError):
            tapermoss.create(fresh(), DRIVE, 1, kind=65536)
        with self.assertRaises(ValueError):
            tapermoss.blank(DRIVE, 8, 1, 8)


class Worked(unittest.TestCase):
    def test_every_case(self):
        # As many calls as tests/worked/README.md says.
        counts = {'base.txt': 2819, 'request-1.txt': 1921, 'request-2.txt': 1979, 'request-4.txt': 1402,
                  'request-5.txt': 1165}
        made = {}
        for path in files():
            name = os.path.basename(path)
            made[name] = sum(self.case_made(name, *case) for case in cases(path))
        self.assertEqual(made, counts)

    def case_made(self, name, number, image, steps):
        """Makes the calls of a case; answers how many these are."""
        for step in steps:
            if not isinstance(step, Call):
                step.into(image)
                continue
            with self.subTest(file=name, case=number, call=step.name):
                self.made_as_worked(image, step)
        return sum(isinstance(step, Call) for step in steps)

    def made_as_worked(self, image, step):
        found = step.made(image)
        self.assertEqual(tuple(getattr(found, field) for field, _ in found._fields_), step.answer)
        self.assertEqual(zlib.crc32(image), step.image_sum)
        if step.buffer_sum is not None:
            self.assertEqual(zlib.crc32(step.arguments[-1]), step.buffer_sum)
        if step.name == 'tree' and found.outcome == 0:
            filled = step.arguments[-1][:32 * found.a]
            self.assertEqual([plain(filled[at:at + 32]) for at in range(0, len(filled), 32)], step.rows)


def plain(row):
    """What the bytes of a row say, as a worked case has it."""
    block, level, what, length, rest = struct.unpack('<IBBB25s', row)
    return block, level, what, rest[:length]
