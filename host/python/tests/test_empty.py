"""Images without bytes and files without blocks: refused or answered by every call, and never a TypeError."""
import array
import ctypes
import os
import tempfile
import textwrap
import unittest

import tapermoss
from tapermoss import Drive, Refused, Source, Summary, Target

from .apart import FOLDER, LIBRARY, python
from .sample import content, named, sample, set_pair

DRIVE = Drive.FLOPPY


def empties():
    """What lends no bytes, in every form that can be written."""
    no_columns = (ctypes.c_ubyte * 0 * 3)()
    return [bytearray(), memoryview(bytearray()), memoryview(bytearray(9))[4:4], memoryview(bytearray()).cast('H'),
            array.array('B'), array.array('I'), memoryview(array.array('H')), no_columns, memoryview(no_columns)]


def reading(image):
    """Every reading call on an image."""
    return [
        lambda: tapermoss.check(image, DRIVE, 1),
        lambda: tapermoss.next_file(image, DRIVE, 1),
        lambda: list(tapermoss.files(image, DRIVE, 1)),
        lambda: tapermoss.read(image, DRIVE, 1, 2, 0, bytearray(512)),
        lambda: tapermoss.show(image, DRIVE, 1, 2, 0),
        lambda: tapermoss.show_pair(image, image, DRIVE, 1, 2, 0),
        lambda: tapermoss.description(image, DRIVE, 1, 2),
        lambda: tapermoss.extract(image, DRIVE, 1, 2, bytearray()),
        lambda: tapermoss.whole_file(image, DRIVE, 1, 2),
        lambda: tapermoss.look_up(image, DRIVE, 1, ''),
        lambda: list(tapermoss.tree(image, DRIVE, 1)),
    ]


def changing(image):
    """Every changing call on an image."""
    return [
        lambda: tapermoss.create(image, DRIVE, 1),
        lambda: tapermoss.write(image, DRIVE, 1, 2, 0, content(0)),
        lambda: tapermoss.describe(image, DRIVE, 1, 2, named(b'letter')),
        lambda: tapermoss.destroy(image, DRIVE, 1, 2),
        lambda: tapermoss.repair(image, DRIVE, 1),
    ]


class Empty(unittest.TestCase):
    def refused(self, number, call, *arguments):
        with self.assertRaises(Refused) as caught:
            call(*arguments)
        self.assertEqual(caught.exception.number, number)

    def test_what_lends_no_bytes_is_refused(self):
        for image in (b'', memoryview(b''), *empties()):
            for place, call in enumerate(reading(image)):
                with self.subTest(kind=type(image).__name__, call=place):
                    self.refused(1, call)
        for image in empties():
            for place, call in enumerate(changing(image)):
                with self.subTest(kind=type(image).__name__, call=place):
                    self.refused(1, call)
        for image, buffer in ((sample(DRIVE), buffer) for buffer in empties()):
            self.refused(3, tapermoss.read, image, DRIVE, 1, 2, 0, buffer)
            self.refused(3, tapermoss.extract, image, DRIVE, 1, 2, buffer)
            self.refused(3, tapermoss.write, image, DRIVE, 1, 2, 0, buffer)
            self.refused(3, tapermoss.describe, image, DRIVE, 1, 2, buffer)
            self.refused(3, tapermoss.name, buffer)

    def test_a_file_without_blocks(self):
        image = sample(DRIVE, blocks=0)
        # It is the root directory too.
        set_pair(image, 1, 14, tapermoss.lbn_to_lda(DRIVE, 2))
        answers = [Summary(1, 1, 37), 2, [2], False, None, (None, Source.REPAIRED), bytes(104), 0, b'', Target(2), []]
        self.assertEqual([call() for call in reading(image)], answers)
        self.assertEqual(tapermoss.show_pair(image, b'', DRIVE, 1, 2, 0), (None, Source.ORIGINAL))
        for buffer in empties():
            self.assertEqual(tapermoss.extract(image, DRIVE, 1, 2, buffer), 0)
            self.assertEqual(tapermoss.look_up(image, DRIVE, 1, buffer, buffer), Target(2))
            self.assertEqual(list(tapermoss.tree(image, DRIVE, 1, buffer)), [])
        for place, answer in enumerate([(3, 3), 4, 1, 3, 39]):
            image = sample(DRIVE, blocks=0)
            self.assertEqual(changing(image)[place](), answer)
            self.assertTrue(tapermoss.check(image, DRIVE, 1))
        self.assertEqual(self.example(), (0, 'Summary(files=1, owned=1, free=1)\n7 empty\n'))

    def example(self):
        """What the example of the module prints for an image whose only file is empty."""
        image = tapermoss.blank(DRIVE, 9, 6, 8)
        tapermoss.repair(image, DRIVE, 6)
        tapermoss.create(image, DRIVE, 6)
        script = textwrap.dedent(''.join(line for line in tapermoss.__doc__.splitlines(True) if line[:4].isspace()))
        with tempfile.TemporaryDirectory() as folder:
            with open(os.path.join(folder, 'disk.img'), 'wb') as file:
                file.write(image)
            return python('-c', script, folder=folder, PYTHONPATH=FOLDER, TAPERMOSS_LIBRARY=LIBRARY)

    def test_bytes_that_do_not_lie_together_are_a_buffer_error(self):
        for image in (memoryview(bytearray())[::2], memoryview(sample(DRIVE))[::2]):
            for place, call in enumerate(reading(image) + changing(image)):
                with self.subTest(length=len(image), call=place), self.assertRaises(BufferError):
                    call()
