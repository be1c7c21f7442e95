"""The reading calls: what they answer, that a shown block is the caller's own memory, and every refusal."""
import mmap
import struct
import tempfile
import unittest

import tapermoss
from tapermoss import RECORD, Drive, Refused, Source, Summary

from .laying import Laying
from .sample import content, malformed, sample, set_pair

DRIVE = Drive.MICROPOLIS35


class Reading(unittest.TestCase):
    def refused(self, number, call, *arguments, block=0):
        with self.assertRaises(Refused) as caught:
            call(*arguments)
        self.assertEqual((caught.exception.number, caught.exception.block), (number, block))

    def test_check_on_every_drive(self):
        for drive in Drive:
            self.assertEqual(tapermoss.check(sample(drive), drive, 1), Summary(1, 4, 34))

    def test_check_refuses(self):
        self.refused(1, tapermoss.check, b'', DRIVE, 1)
        self.refused(1, tapermoss.check, bytes(529), DRIVE, 1)
        self.refused(2, tapermoss.check, sample(DRIVE), DRIVE, 2)
        self.refused(4, tapermoss.check, malformed(DRIVE), DRIVE, 1, block=2)
        unsound = sample(DRIVE)
        set_pair(unsound, 1, 12, 7)
        self.refused(5, tapermoss.check, unsound, DRIVE, 1)

    def test_files(self):
        image = sample(DRIVE)
        self.assertEqual(list(tapermoss.files(image, DRIVE, 1)), [2])
        self.assertEqual(tapermoss.next_file(image, DRIVE, 1), 2)
        self.assertIsNone(tapermoss.next_file(image, DRIVE, 1, 2))
        self.assertEqual(list(tapermoss.files(malformed(DRIVE), DRIVE, 1)), [])

    def test_a_shown_block_is_the_caller_s_own_memory(self):
        image = sample(DRIVE)
        view = tapermoss.show(image, DRIVE, 1, 2, 1)
        self.assertIsInstance(view, memoryview)
        self.assertTrue(view.readonly)
        self.assertEqual(view, content(1))
        image[RECORD * 4 + 16] ^= 255
        self.assertEqual(view[0], content(1)[0] ^ 255)
        with self.assertRaises(BufferError):
            image.append(0)
        view.release()
        image.append(0)

    def test_an_image_may_be_any_object_that_lends_its_bytes(self):
        image = sample(DRIVE)
        with tempfile.TemporaryFile() as file:
            file.write(image)
            file.flush()
            with mmap.mmap(file.fileno(), 0, access=mmap.ACCESS_READ) as mapped:
                things = [bytes(image), image, memoryview(image), memoryview(bytes(image)), mapped]
                for thing in things:
                    self.assertEqual(tapermoss.check(thing, DRIVE, 1), Summary(1, 4, 34))
                    with tapermoss.show(thing, DRIVE, 1, 2, 2) as view:
                        self.assertEqual(view, content(2))
        with self.assertRaises(BufferError):
            tapermoss.check(memoryview(image)[::2], DRIVE, 1)
        with self.assertRaises(TypeError):
            tapermoss.check('image', DRIVE, 1)

    def test_show_tells_absent_and_refused_apart(self):
        image = sample(DRIVE)
        self.assertIsNone(tapermoss.show(image, DRIVE, 1, 2, 3))
        self.assertIsNone(tapermoss.show(image, DRIVE, 1, 2, 32766))
        self.refused(7, tapermoss.show, image, DRIVE, 1, 2, 32767)
        self.refused(6, tapermoss.show, image, DRIVE, 1, 3, 0)
        self.refused(4, tapermoss.show, malformed(DRIVE), DRIVE, 1, 2, 0, block=2)

    def test_show_from_a_pair(self):
        original, repaired = sample(DRIVE), sample(DRIVE, blocks=2)
        repaired[RECORD * 3 + 16] = 99
        shown = tapermoss.show_pair(original, repaired, DRIVE, 1, 2, 0)
        self.assertEqual((shown.source, shown.view[0]), (Source.REPAIRED, 99))
        repaired[RECORD * 3 + 16] = 98
        self.assertEqual(shown.view[0], 98)
        self.assertEqual(tapermoss.show_pair(original, repaired, DRIVE, 1, 2, 2), (None, Source.REPAIRED))
        shown = tapermoss.show_pair(original, malformed(DRIVE), DRIVE, 1, 2, 2)
        self.assertEqual((shown.source, bytes(shown.view)), (Source.ORIGINAL, content(2)))
        self.refused(4, tapermoss.show_pair, malformed(DRIVE), b'', DRIVE, 1, 2, 0, block=2)

    def test_read(self):
        image, buffer = sample(DRIVE), bytearray(512)
        self.assertTrue(tapermoss.read(image, DRIVE, 1, 2, 1, buffer))
        self.assertEqual(buffer, content(1))
        self.assertFalse(tapermoss.read(image, DRIVE, 1, 2, 3, buffer))
        self.assertEqual(buffer, bytes(512))
        short = bytearray(b'x' * 511)
        self.refused(3, tapermoss.read, image, DRIVE, 1, 2, 1, short)
        self.assertEqual(short, b'x' * 511)
        with self.assertRaises(BufferError):
            tapermoss.read(image, DRIVE, 1, 2, 1, bytes(512))

    def test_whole_files(self):
        image = sample(DRIVE)
        self.assertEqual(tapermoss.whole_file(image, DRIVE, 1, 2), content(0) + content(1) + content(2))
        self.assertEqual(tapermoss.whole_file(sample(DRIVE, blocks=0), DRIVE, 1, 2), b'')
        self.refused(6, tapermoss.whole_file, image, DRIVE, 1, 3)
        self.refused(6, tapermoss.whole_file, image, DRIVE, 1, 2 ** 32 - 1)
        self.refused(3, tapermoss.extract, image, DRIVE, 1, 2, bytearray(512))
        self.refused(4, tapermoss.whole_file, malformed(DRIVE), DRIVE, 1, 2, block=2)

    def test_a_file_with_a_double_index(self):
        laying = Laying('partition 4340', DRIVE, 1)
        laying.add('file 2 kind 5 blocks 4290 at 3 step 1')
        laying.add('chain')
        image = bytearray(RECORD * 4341)
        laying.into(image)
        # 34 pointer blocks and -2 stand before the data, whose first word is the block's number.
        self.assertEqual(tapermoss.check(image, DRIVE, 1), Summary(1, 1 + 34 + 1 + 4290, 13))
        whole = tapermoss.whole_file(image, DRIVE, 1, 2)
        self.assertEqual([*struct.iter_unpack('<H510x', whole)], [(r,) for r in range(4290)])
        for r in (63, 64, 4159, 4160, 4287, 4288, 4289):
            self.assertEqual(tapermoss.show(image, DRIVE, 1, 2, r), r.to_bytes(512, 'little'))
        self.assertIsNone(tapermoss.show(image, DRIVE, 1, 2, 4290))

    def test_description(self):
        image = sample(DRIVE)
        image[RECORD * 2 + 16:RECORD * 2 + 16 + 104] = bytes(range(104))
        self.assertEqual(tapermoss.description(image, DRIVE, 1, 2), bytes(range(104)))
        self.refused(6, tapermoss.description, image, DRIVE, 1, 3)
