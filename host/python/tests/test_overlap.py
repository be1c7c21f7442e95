"""Memory that a call is lent twice: refused where the call changes one of the two, and taken where it only reads."""
import array
import ctypes
import mmap
import unittest
from typing import Callable, NamedTuple

import tapermoss
from tapermoss import DATA, DESCRIPTION, ROW, Drive, Source, Target

from .planted import planted
from .sample import content, sample

DRIVE = Drive.FLOPPY


class Pair(NamedTuple):
    """A call that is lent an image and a buffer and changes one of them: what makes an image, how long the buffer is, what
    stands between the two and behind them, and the places of what is changed and of what is not, counted from 1."""
    make: Callable
    length: int
    between: list
    behind: list
    changed: int
    kept: int


#: File 2 of the sample has three blocks, and block 3 is appended; of the tree, which has more, two rows are asked for.
PAIRS = {
    'read': Pair(sample, DATA, [2, 1], [], 6, 1),
    'description': Pair(sample, DESCRIPTION, [2], [], 5, 1),
    'extract': Pair(sample, 3 * DATA, [2], [], 5, 1),
    'tree': Pair(planted, 2 * ROW, [b''], [], 5, 1),
    'write': Pair(sample, DATA, [2, 3], [tapermoss.ALL], 1, 6),
    'describe': Pair(sample, DESCRIPTION, [2], [tapermoss.ALL], 1, 5),
}


def answer(name, image, buffer):
    """All fields of the answer to the call of a pair."""
    pair = PAIRS[name]
    found = tapermoss.call(name, image, DRIVE, 1, *pair.between, buffer, *pair.behind)
    return tuple(getattr(found, field) for field, _ in found._fields_)


def pieces(kinds):
    """How many pieces of memory a call is lent, and how many of them it changes."""
    addresses = [kind for kind in kinds if issubclass(kind, ctypes.c_void_p)]
    return len(addresses), addresses.count(tapermoss._Changed)


class Overlap(unittest.TestCase):
    def raises(self, name, changed, other, call, *arguments):
        with self.assertRaises(ValueError) as caught:
            call(*arguments)
        said = f'{name} changes the bytes of argument {changed}, and those of argument {other} overlap with them'
        self.assertEqual(str(caught.exception), said)

    def overlaps(self, name, image, buffer):
        self.raises(name, PAIRS[name].changed, PAIRS[name].kept, answer, name, image, buffer)

    def test_no_call_is_left_out(self):
        counts = {name: pieces(kinds) for name, kinds in tapermoss._SIGNATURES.items()}
        several = {name: changed for name, (lent, changed) in counts.items() if lent > 1}
        self.assertEqual({name for name in several if several[name]}, set(PAIRS))
        self.assertEqual({name for name in several if not several[name]}, {'show_pair', 'look_up'})

    def test_one_object_for_both(self):
        for name, pair in PAIRS.items():
            image = pair.make(DRIVE)
            with mmap.mmap(-1, len(image)) as mapped:
                mapped[:] = bytes(image)
                things = [image, array.array('H', image), (ctypes.c_ubyte * len(image)).from_buffer_copy(image), mapped]
                for thing in things:
                    with self.subTest(call=name, kind=type(thing).__name__):
                        self.overlaps(name, thing, thing)
                        self.overlaps(name, memoryview(thing), thing)
                        self.assertEqual(bytes(thing), image)
            # Nothing is lent any more, or this would be an error.
            image.append(0)

    def test_views_that_share_a_byte(self):
        for name, pair in PAIRS.items():
            image, length = pair.make(DRIVE), pair.length
            memory = bytearray(length) + image + bytearray(length)
            before, end = bytes(memory), length + len(image)
            # From the last byte of the buffer being the first of the image to the other way about.
            for start in (1, length - 1, length, length + 1, length + 701, end - length, end - 1):
                with self.subTest(call=name, start=start):
                    view = memoryview(memory)
                    self.overlaps(name, view[length:end], view[start:start + length])
                    self.overlaps(name, view[length:end].cast('H'), view[start:start + length].cast('c'))
                    self.assertEqual(memory, before)

    def test_views_of_one_bytearray_that_lie_apart(self):
        for name, pair in PAIRS.items():
            image, buffer = pair.make(DRIVE), bytearray(content(7) * 3)[:pair.length]
            # As a description it has a name that is taken.
            buffer[22:24] = b'\x01a'
            # The buffer lies right before the image and right behind it.
            for memory, cut in ((buffer + image, pair.length), (image + buffer, len(image))):
                parts = sorted((memoryview(memory)[:cut], memoryview(memory)[cut:]), key=len, reverse=True)
                alone = image[:], buffer[:]
                with self.subTest(call=name, cut=cut):
                    expected = answer(name, *alone)
                    self.assertEqual(expected[0], 0)
                    self.assertEqual(answer(name, *parts), expected)
                    self.assertEqual((parts[0], parts[1]), alone)

    def test_what_has_no_bytes_overlaps_with_nothing(self):
        expected = {name: (2, 3, 0, 0, 0, 0, 0) for name in PAIRS}
        expected['tree'] = 0, 0, 0, 0, 0, 1, 0
        for name, pair in PAIRS.items():
            image = pair.make(DRIVE)
            for start in (0, 600, len(image)):
                with self.subTest(call=name, start=start):
                    self.assertEqual(answer(name, image, memoryview(image)[start:start]), expected[name])
            self.assertEqual(image, pair.make(DRIVE))

    def test_a_rule_and_the_rows(self):
        image, memory = planted(DRIVE), bytearray(26 + 2 * ROW)
        view = memoryview(memory)
        for start in (0, 1, 25):
            rows = view[start:start + 2 * ROW]
            self.raises('tree', 5, 4, tapermoss.call, 'tree', image, DRIVE, 1, view[:26], rows)
        self.assertEqual(memory, bytes(26 + 2 * ROW))
        rows = bytearray(2 * ROW)
        alone = tapermoss.call('tree', image, DRIVE, 1, bytes(26), rows)
        found = tapermoss.call('tree', image, DRIVE, 1, view[:26], view[26:])
        self.assertEqual((bytes(found), view[26:]), (bytes(alone), rows))

    def test_what_is_only_read_may_be_the_same(self):
        image = sample(DRIVE)
        shown = tapermoss.show_pair(image, image, DRIVE, 1, 2, 1)
        self.assertEqual((bytes(shown.view), shown.source), (content(1), Source.REPAIRED))
        image = planted(DRIVE)
        # Mail is entry 3 of block 3, and its name stands behind seven bytes.
        at = tapermoss.RECORD * 3 + 16 + 3 * 32 + 7
        name, zeros = memoryview(image)[at:at + 4], memoryview(image)[:26]
        self.assertEqual(tapermoss.look_up(image, DRIVE, 1, name), Target(6))
        self.assertEqual(tapermoss.look_up(image, DRIVE, 1, name, name[:0]), Target(6))
        # With weights of zero every name is looked for in block 0.
        self.assertEqual(tapermoss.look_up(image, DRIVE, 1, name, zeros), Target(6))
        paths = [row.path for row in tapermoss.tree(image, DRIVE, 1, zeros)]
        self.assertEqual(paths, [b'Notes.txt', b'Mail', b'Mail>Memo', b'Mail>Lost', b'Gone'])

    def test_the_calls_with_types_refuse_it_too(self):
        image = sample(DRIVE)
        view = memoryview(image)
        before = bytes(image)
        self.raises('read', 6, 1, tapermoss.read, image, DRIVE, 1, 2, 1, view[:DATA])
        self.raises('extract', 5, 1, tapermoss.extract, image, DRIVE, 1, 2, view[-3 * DATA:])
        self.raises('describe', 1, 5, tapermoss.describe, image, DRIVE, 1, 2, view[600:600 + DESCRIPTION])
        shown = tapermoss.show(image, DRIVE, 1, 2, 0)
        self.raises('write', 1, 6, tapermoss.write, image, DRIVE, 1, 2, 3, shown)
        self.assertEqual(image, before)
        # A block that was shown is copied before it is written to the same image.
        self.assertEqual(tapermoss.write(image, DRIVE, 1, 2, 3, bytes(shown)), 5)
        self.assertEqual(tapermoss.show(image, DRIVE, 1, 2, 3), content(0))

    def test_what_a_call_changes_must_be_writable(self):
        for name, pair in PAIRS.items():
            image, buffer = pair.make(DRIVE), bytes(pair.length)
            with self.subTest(call=name), self.assertRaises(BufferError):
                answer(name, *((image, buffer) if pair.kept == 1 else (bytes(image), buffer)))
