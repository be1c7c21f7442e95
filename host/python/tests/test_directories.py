"""The calls on directories: rows and their paths, what paths lead to, the hash rule, every refusal, the worked cases."""
import array
import contextlib
import inspect
import io
import mmap
import tempfile
import unittest
import zlib
from unittest import mock

import tapermoss
from tapermoss import Drive, Refused, Row, Target, Tree, What, look_up, tree

from .planted import NIL, chain, entry, lay_directory, partition, planted, wide
from .sample import lay_file, set_pair, set_words
from .worked import CHANGES, REQUEST_1, Put, cases

DRIVE = Drive.FLOPPY
#: The tree of planted(), read off its text: by block and place, what stands in a directory right behind its own row.
ROWS = [
    Row(5, 1, What.FILE, b'Notes.txt', b'Notes.txt'),
    Row(6, 1, What.DIRECTORY, b'Mail', b'Mail'),
    Row(8, 2, What.FILE, b'Memo', b'Mail>Memo'),
    Row(None, 2, What.DANGLING, b'Lost', b'Mail>Lost'),
    Row(None, 1, What.DANGLING, b'Gone', b'Gone'),
    Row(5, 1, What.FILE, b'News', b'News'),
    Row(8, 1, What.FILE, b'MAIL', b'MAIL'),
]
#: The hash of n letters is (4 n + c1) mod 31. Mail and Memo have 16 + 77 = 3 * 31 + 0 and News 16 + 78 = 3 * 31 + 1:
#: these are their blocks. In block 0 stand Notes.txt with 36 + 78 = 3 * 31 + 21, Lost with 16 + 76 = 2 * 31 + 30 and Gone
#: with 16 + 71 = 2 * 31 + 25, in block 1 MAIL with 0: they are not taken.
RULE = bytes([4, 1]) + bytes(24)


class Asked(unittest.TestCase):
    def refused(self, number, call, *arguments, block=0):
        with self.assertRaises(Refused) as caught:
            call(*arguments)
        self.assertEqual((caught.exception.number, caught.exception.block), (number, block))
        return str(caught.exception)

    def says(self, call, image):
        """What the example in the text of a call prints."""
        lines = inspect.getdoc(call).splitlines()
        script = inspect.cleandoc('\n' + '\n'.join(line for line in lines if line.startswith('    ')))
        with contextlib.redirect_stdout(io.StringIO()) as said:
            exec(script, {**vars(tapermoss), 'image': image})
        return said.getvalue()


class Trees(Asked):
    def rows(self, image, *arguments):
        found = tree(image, DRIVE, 1, *arguments)
        return list(found), found.complete

    def test_rows_and_their_paths_on_every_drive(self):
        for drive in Drive:
            found = tree(planted(drive), drive, 1)
            self.assertIsInstance(found, Tree)
            self.assertIs(iter(found), found)
            self.assertEqual(next(found), ROWS[0])
            self.assertEqual(list(found), ROWS[1:])
            self.assertIs(found.complete, True)
            self.assertEqual(list(found), [])

    def test_the_rule_passes_over_entries_in_other_blocks(self):
        self.assertEqual(self.rows(planted(DRIVE), RULE), ([ROWS[1], ROWS[2], ROWS[5]], True))
        self.assertEqual(self.rows(planted(DRIVE), bytearray(RULE), 2), ([ROWS[1], ROWS[2]], False))
        self.assertEqual(self.rows(planted(DRIVE), memoryview(b'')), (ROWS, True))

    def test_a_tree_that_goes_on_behind_the_last_row_is_not_complete(self):
        for most in range(10):
            self.assertEqual(self.rows(planted(DRIVE), b'', most), (ROWS[:most], most >= len(ROWS)))
        empty = partition(DRIVE, 5, 2)
        lay_file(empty, DRIVE, 2, [])
        self.assertEqual(self.rows(empty, b'', 0), ([], True))
        self.assertEqual(self.rows(empty), ([], True))

    def test_the_buffer_grows_by_doubling_from_64_rows(self):
        image = wide(DRIVE, 9)
        whole = [Row(12, 1, What.FILE, b'%d' % i, b'%d' % i) for i in range(144)]
        asked = [(144, [64, 128, 144]), (65536, [64, 128, 256]), (143, [64, 128, 143]), (128, [64, 128]),
                 (65, [64, 65]), (64, [64]), (63, [63])]
        call, found = tapermoss.call, []

        def measured(*arguments, **named):
            found.append(len(arguments[-1]) // 32)
            return call(*arguments, **named)

        for most, sizes in asked:
            found.clear()
            with self.subTest(most=most), mock.patch.object(tapermoss, 'call', measured):
                self.assertEqual(self.rows(image, b'', most), (whole[:most], most >= 144))
                self.assertEqual(found, sizes)

    def test_rows_are_those_at_the_time_of_the_call(self):
        image = planted(DRIVE)
        found = tree(image, DRIVE, 1)
        image[:] = bytes(len(image))
        self.assertEqual(list(found), ROWS)

    def test_the_example(self):
        self.assertEqual(self.says(tree, planted(DRIVE)), '5 FILE Notes.txt\n6 DIRECTORY Mail\n8 FILE Mail>Memo\n'
                         'None DANGLING Mail>Lost\nNone DANGLING Gone\n5 FILE News\n8 FILE MAIL\n')


class LookUp(Asked):
    def led(self, path, *rule):
        return look_up(planted(DRIVE), DRIVE, 1, path, *rule)

    def test_what_paths_lead_to(self):
        paths = {'': Target(2), 'Notes.txt': Target(5), 'Mail': Target(6), 'Mail>Memo': Target(8), 'News': Target(5),
                 'Mail>Lost': Target(None), 'Gone': Target(None)}
        for path, target in paths.items():
            for same in (path, path.upper(), path.lower(), path.encode(), bytearray(path.lower(), 'ascii'),
                         memoryview(path.upper().encode())):
                self.assertEqual(self.led(same), target)

    def test_paths_that_are_not_there(self):
        for path in ('Memo', 'Erased', 'Note', 'Notes.txt ', 'Notes.txt>Memo', 'Gone>Memo', 'Mail>Lost>Memo', '>',
                     '>Mail', 'Mail>', 'Mail>>Memo', 'M' * 26):
            self.assertIsNone(self.led(path), path)

    def test_the_rule_says_in_which_block_a_name_is_looked_for(self):
        for path in ('mail', 'MAIL', 'Mail'):
            self.assertEqual(self.led(path, RULE), Target(6))
        self.assertEqual(self.led('mAIL>mEMO', RULE), Target(8))
        self.assertEqual(self.led('news', bytearray(RULE)), Target(5))
        self.assertEqual(self.led('', RULE), Target(2))
        for path in ('Notes.txt', 'Gone', 'Mail>Lost'):
            self.assertIsNone(self.led(path, memoryview(RULE)))

    def test_a_name_may_have_any_bytes(self):
        image = partition(DRIVE, 8, 2)
        lay_directory(image, DRIVE, 2, {7: entry(b'\xe9t\xe9\0', tapermoss.lbn_to_lda(DRIVE, 4))})
        lay_file(image, DRIVE, 4, [])
        self.assertEqual(look_up(image, DRIVE, 1, b'\xe9T\xe9\0'), Target(4))
        self.assertIsNone(look_up(image, DRIVE, 1, b'\xc9t\xc9\0'))
        self.assertEqual([row.path for row in tree(image, DRIVE, 1)], [b'\xe9t\xe9\0'])
        with self.assertRaises(UnicodeEncodeError):
            look_up(image, DRIVE, 1, '\xe9t\xe9\0')

    def test_the_example(self):
        image = planted(DRIVE)
        self.assertEqual(self.says(look_up, image), 'file 8\n')
        set_words(image, 8, 2, 0)
        self.assertEqual(self.says(look_up, image), 'dangling\n')
        set_pair(image, 1, 14, tapermoss.lbn_to_lda(DRIVE, 5))
        self.assertEqual(self.says(look_up, image), 'not there\n')


class Refusals(Asked):
    def both(self, number, image, s=1, rule=b''):
        """Both calls are refused, tree at once and not when its first row is asked for; answers what they say."""
        before = bytes(image)
        sentence = self.refused(number, tree, image, DRIVE, s, rule)
        self.assertEqual(self.refused(number, look_up, image, DRIVE, s, '', rule), sentence)
        self.assertEqual(image, before)
        return sentence

    def test_what_is_no_image_or_partition(self):
        self.both(1, b'')
        self.both(1, bytes(529))
        self.both(2, planted(DRIVE), s=2)

    def test_a_rule_of_another_length(self):
        sentence = 'refused (3): the buffer, the hash rule or the rows have a length that the call does not take'
        for length in (1, 25, 27, 52):
            self.assertEqual(self.both(3, planted(DRIVE), rule=bytes(length)), sentence)

    def test_a_root_that_is_no_file(self):
        sentence = 'refused (6): this block, or the root directory, is no file of the partition'
        for lda in (NIL, *(tapermoss.lbn_to_lda(DRIVE, lbn) for lbn in (1, 3, 9, 11, 12)), 2 ** 32 - 1):
            image = planted(DRIVE)
            set_pair(image, 1, 14, lda)
            self.assertEqual(self.both(6, image), sentence)
        malformed = planted(DRIVE)
        set_words(malformed, 2, 8 + 249, 99)
        self.assertEqual(self.both(6, malformed), sentence)

    def test_nine_levels_are_looked_into(self):
        image = chain(DRIVE, 9)
        found = tree(image, DRIVE, 1)
        names = [b'D'] * 8 + [b'F']
        self.assertEqual([(row.lbn, row.level, row.path) for row in found],
                         [(2 * k + 2, k, b'>'.join(names[:k])) for k in range(1, 10)])
        self.assertTrue(found.complete)
        self.assertEqual(look_up(image, DRIVE, 1, 'D>D>D>D>D>D>D>D>F'), Target(20))

    def test_a_tenth_level_is_refused_and_named(self):
        image = chain(DRIVE, 10)
        sentence = 'refused (11): the directory at block 20 is of the tenth level, and only nine are looked into'
        for most in (9, 10, 65536):
            self.assertEqual(self.refused(11, tree, image, DRIVE, 1, b'', most, block=20), sentence)
        found = tree(image, DRIVE, 1, b'', 8)
        self.assertEqual([row.lbn for row in found], [4, 6, 8, 10, 12, 14, 16, 18])
        self.assertFalse(found.complete)
        # It may be where a path ends.
        self.assertEqual(look_up(image, DRIVE, 1, 'D>D>D>D>D>D>D>D>D'), Target(20))
        self.assertEqual(self.refused(11, look_up, image, DRIVE, 1, 'D>D>D>D>D>D>D>D>D>F', block=20), sentence)


class Lent(Asked):
    def test_an_image_may_be_any_object_that_lends_its_bytes(self):
        image = planted(DRIVE)
        before = bytes(image)
        with tempfile.TemporaryFile() as file:
            file.write(image)
            file.flush()
            with mmap.mmap(file.fileno(), 0, access=mmap.ACCESS_READ) as mapped:
                for thing in (before, image, memoryview(image), memoryview(before), array.array('H', before), mapped):
                    self.assertEqual(list(tree(thing, DRIVE, 1)), ROWS)
                    self.assertEqual(look_up(thing, DRIVE, 1, 'Mail>Memo'), Target(8))
                self.assertEqual(mapped[:], before)
        self.assertEqual(image, before)
        # Nothing is lent any more when a call is over.
        image.append(0)

    def test_what_lends_no_bytes_or_is_no_number_is_an_error(self):
        image = planted(DRIVE)
        errors = {TypeError: [('image', DRIVE, 1), (image, DRIVE, '1'), (image, DRIVE, b'1'), (image, DRIVE, 1.0)],
                  BufferError: [(memoryview(image)[::2], DRIVE, 1)],
                  OverflowError: [(image, DRIVE, -1), (image, DRIVE, 2 ** 32), (image, -1, 1), (5, DRIVE, 1)]}
        for error, asked in errors.items():
            for arguments in asked:
                with self.subTest(error=error.__name__, asked=arguments[1:]):
                    self.assertRaises(error, tree, *arguments)
                    self.assertRaises(error, look_up, *arguments, '')

    def test_a_wrong_path_rule_or_number_of_rows_is_an_error(self):
        image = planted(DRIVE)
        for path, error in ((None, TypeError), (['Mail'], TypeError), (5, OverflowError),
                            (memoryview(b'Mail')[::2], BufferError)):
            self.assertRaises(error, look_up, image, DRIVE, 1, path)
        for rule in (None, list(RULE), RULE.decode('ascii')):
            self.assertRaises(TypeError, look_up, image, DRIVE, 1, '', rule)
            self.assertRaises(TypeError, tree, image, DRIVE, 1, rule)
        self.assertRaises(OverflowError, tree, image, DRIVE, 1, b'', -1)
        for most in (2.0, 65536.0, '2', None):
            self.assertRaises(TypeError, tree, image, DRIVE, 1, b'', most)


class Worked(Asked):
    def test_the_worked_cases(self):
        count = 0
        for number, image, steps in cases(REQUEST_1):
            for step in steps:
                if isinstance(step, Put):
                    step.into(image)
                    continue
                if step.name in CHANGES:
                    # The tests of the changing calls run all that stands in a case.
                    break
                # Rows of a length that is no multiple of 32 cannot be asked for here.
                if step.name == 'look_up' or step.name == 'tree' and len(step.arguments[-1]) % 32 == 0:
                    with self.subTest(case=number, call=step.name):
                        self.made_as_worked(image, step)
                        count += 1
        self.assertGreater(count, 1000)

    def made_as_worked(self, image, step):
        drive, s, rule, last = step.arguments
        outcome, number, block, _, a, b, _ = step.answer
        arguments = (image, drive, s, last, rule) if step.name == 'look_up' else (image, drive, s, rule, len(last) // 32)
        call = getattr(tapermoss, step.name)
        if outcome == 2:
            self.refused(number, call, *arguments, block=block)
        elif step.name == 'look_up':
            self.assertEqual(call(*arguments), [Target(None if b else a), None][outcome])
        else:
            found = call(*arguments)
            expected = [(None if what == 2 else lbn, level, What(what), name, path_of(step.rows, i))
                        for i, (lbn, level, what, name) in enumerate(step.rows)]
            self.assertEqual((list(found), found.complete), (expected, not b))
        self.assertEqual(zlib.crc32(image), step.image_sum)


def path_of(rows, i):
    """The names down to a row: before it stands that of the directory, the nearest one of the level above."""
    level, name = rows[i][1], rows[i][3]
    if level == 1:
        return name
    above = max(j for j in range(i) if rows[j][1] == level - 1)
    return path_of(rows, above) + b'>' + name
