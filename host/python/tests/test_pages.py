"""The pages of docs: every Python block of the tool's page runs by itself, in a folder with the images that it speaks of."""
import os
import re
import tempfile
import unittest

import tapermoss
from tapermoss import Drive, Row, Summary, Target, What

from .apart import FOLDER, LIBRARY, python
from .planted import DIRECTORY, block, entry
from .sample import content, named, set_pair

PAGE = os.path.join(FOLDER, '..', '..', 'docs', 'TOOL.md')
DRIVE, S = Drive.FLOPPY, 6


def sample_image():
    """A floppy with a partition at 6 and file 7 of two blocks in it."""
    image = tapermoss.blank(DRIVE, 40, S, 39)
    tapermoss.repair(image, DRIVE, S)
    make_file(image, content(0), content(1))
    return image


def tree_image():
    """The same with a root directory, in which `letters` is a directory that names file 7 `first.text`."""
    image = sample_image()
    letters = make_directory(image, b'first.text', 7)
    root = make_directory(image, b'letters', letters)
    set_pair(image, S, 14, tapermoss.lbn_to_lda(DRIVE, root))
    return image


def make_file(image, *blocks):
    f = tapermoss.create(image, DRIVE, S).file
    for r, data in enumerate(blocks):
        tapermoss.write(image, DRIVE, S, f, r, data)
    return f


def make_directory(image, name, lbn):
    """A directory whose only entry names this file."""
    f = make_file(image, block({0: entry(name, tapermoss.lbn_to_lda(DRIVE, lbn))}))
    described = bytearray(named(b'directory'))
    described[16] = DIRECTORY
    tapermoss.describe(image, DRIVE, S, f, described)
    return f


def blocks():
    """The Python blocks of the page."""
    with open(PAGE, encoding='utf-8') as file:
        return re.findall(r'^```python\n(.*?)^```$', file.read(), re.DOTALL | re.MULTILINE)


class Pages(unittest.TestCase):
    def test_the_images(self):
        self.assertEqual(tapermoss.check(sample_image(), DRIVE, S), Summary(1, 3, 30))
        image = tree_image()
        self.assertEqual(tapermoss.check(image, DRIVE, S), Summary(3, 7, 26))
        self.assertEqual(list(tapermoss.tree(image, DRIVE, S)), [
            Row(10, 1, What.DIRECTORY, b'letters', b'letters'),
            Row(7, 2, What.FILE, b'first.text', b'letters>first.text'),
        ])
        self.assertEqual(tapermoss.look_up(image, DRIVE, S, 'letters>first.text'), Target(7))

    def test_every_block_of_the_tool_s_page(self):
        found = blocks()
        self.assertGreater(len(found), 1)
        for number, script in enumerate(found, 1):
            with self.subTest(block=number), tempfile.TemporaryDirectory() as folder:
                for name, image in (('sample.img', sample_image()), ('tree.img', tree_image())):
                    with open(os.path.join(folder, name), 'wb') as file:
                        file.write(image)
                status, said = python('-c', script, folder=folder, PYTHONPATH=FOLDER, TAPERMOSS_LIBRARY=LIBRARY)
                self.assertEqual(status, 0, said)
                self.assertTrue(said, 'an example shows something')
