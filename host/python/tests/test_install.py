"""An install by pip: without a network, from a checkout that it leaves as it was, and with the library in it."""
import os
import re
import shutil
import tempfile
import unittest

from tapermoss import Drive

from .apart import FOLDER, LIBRARY, python
from .sample import sample

CHECK = '''
import importlib.metadata, os, tapermoss
with open('disk.img', 'rb') as file:
    print(tapermoss.check(file.read(), tapermoss.Drive.FLOPPY, 1))
print(importlib.metadata.version('tapermoss'))
print(os.path.exists(os.path.join(os.path.dirname(tapermoss.__file__), 'py.typed')))
'''


class Install(unittest.TestCase):
    def setUp(self):
        folder = tempfile.TemporaryDirectory()
        self.addCleanup(folder.cleanup)
        self.checkout, self.target, self.elsewhere = (os.path.join(folder.name, name) for name in ('main', 'to', 'else'))
        self.module = os.path.join(self.checkout, 'host', 'python')
        self.library = os.path.join(self.checkout, 'build', 'libperq.so')
        shutil.copytree(FOLDER, self.module, ignore=shutil.ignore_patterns('__pycache__'))
        os.mkdir(self.elsewhere)

    def install(self):
        return python('-m', 'pip', '--isolated', '--disable-pip-version-check', '--no-cache-dir', 'install', '--no-index',
                      '--target', self.target, self.module, folder=self.elsewhere)

    def listed(self):
        """The files of the checkout but for what Python caches."""
        return sorted(os.path.join(folder, name) for folder, _, names in os.walk(self.checkout) for name in names
                      if os.path.basename(folder) != '__pycache__')

    def test_an_installed_module_has_its_library(self):
        os.mkdir(os.path.dirname(self.library))
        shutil.copy(LIBRARY, self.library)
        before = self.listed()
        status, said = self.install()
        self.assertEqual(status, 0, said)
        self.assertEqual(self.listed(), before)
        with open(os.path.join(self.module, 'pyproject.toml')) as file:
            version = re.search('^version = "(.*)"$', file.read(), re.MULTILINE).group(1)
        # What is installed needs the checkout no more.
        shutil.rmtree(self.checkout)
        with open(os.path.join(self.elsewhere, 'disk.img'), 'wb') as file:
            file.write(sample(Drive.FLOPPY))
        self.assertEqual(python('-c', CHECK, folder=self.elsewhere, PYTHONPATH=self.target),
                         (0, f'Summary(files=1, owned=4, free=34)\n{version}\nTrue\n'))

    def test_an_install_without_a_library_says_what_makes_it(self):
        status, said = self.install()
        self.assertNotEqual(status, 0, said)
        self.assertIn(self.library, said)
        self.assertIn('run `make python` first', said)
