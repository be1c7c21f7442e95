"""The module as a whole: refusals that are copied, the names and their type hints, how many arguments a call takes, and a
library that is not there."""
import ast
import concurrent.futures
import copy
import inspect
import multiprocessing
import os
import pickle
import re
import shutil
import tempfile
import typing
import unittest

import tapermoss
from tapermoss import Drive, NameFault, NameRule, Refused

from .apart import FOLDER, python
from .sample import malformed


class Refusals(unittest.TestCase):
    def same(self, refusal, number, block, sentence):
        self.assertIs(type(refusal), Refused)
        self.assertEqual((refusal.number, refusal.block, str(refusal)), (number, block, sentence))
        self.assertEqual(refusal.fault is None, number != 12)

    def test_a_copy_says_the_same(self):
        fault = NameFault(NameRule.DOTS, 3, b'>..>')
        for number in (*range(1, 13), 99):
            refusal = Refused(number, 7 if number in (4, 11) else 0, fault if number == 12 else None)
            whole = number, refusal.block, str(refusal)
            for protocol in range(pickle.HIGHEST_PROTOCOL + 1):
                self.same(pickle.loads(pickle.dumps(refusal, protocol)), *whole)
            self.same(copy.copy(refusal), *whole)
            self.same(copy.deepcopy(refusal), *whole)

    def test_a_refusal_comes_from_another_process(self):
        for method in multiprocessing.get_all_start_methods():
            context = multiprocessing.get_context(method)
            with self.subTest(method=method), concurrent.futures.ProcessPoolExecutor(1, context) as pool:
                with self.assertRaises(Refused) as caught:
                    pool.submit(tapermoss.check, malformed(Drive.FLOPPY), Drive.FLOPPY, 1).result(60)
                self.same(caught.exception, 4, 2, 'refused (4): block 2 is a malformed file block')

    def test_repair_is_not_promised_where_no_block_is_free(self):
        sentence = 'refused (5): the partition is not sound; repair mends it unless no block is free'
        self.assertEqual(str(Refused(5)), sentence)

    def test_the_sentences_are_those_of_the_crate(self):
        with open(os.path.join(FOLDER, '..', 'perq', 'src', 'refusal.rs')) as file:
            shown = file.read().split('impl fmt::Display for Refusal')[1].split('impl Error')[0]
        sentences = re.findall(r'Refusal::\w+[^"]*=>[^"]*"([^"]*)"', shown)
        said = [str(Refused(number, 812)) for number in range(1, 12)]
        self.assertEqual(said, [f'refused ({i}): ' + sentence.replace('{block}', '812')
                                for i, sentence in enumerate(sentences, 1)])
        self.assertEqual(str(Refused(12)), 'refused (12): the name is one that describe does not take')
        self.assertEqual(str(Refused(13)), 'refused (13): the number is not known')

    def test_the_sentences_of_names_are_those_of_the_crate(self):
        with open(os.path.join(FOLDER, '..', 'perq', 'src', 'name.rs')) as file:
            shown = file.read().split('impl fmt::Display for NameFault')[1].split('impl Error')[0]
        sentences = [found.replace('\\"', '"').replace('{:.<dots$}', '..') for found in
                     re.findall(r'(?:write_str\(|write!\(out, )"((?:[^"\\]|\\.)+)"', shown)]
        faults = [NameFault(NameRule.LENGTH, 0, b'\0'), NameFault(NameRule.LENGTH, 0, b'Q'),
                  NameFault(NameRule.CONTROL, 3, b'\x1f'), NameFault(NameRule.RESERVED, 5, b'<'),
                  NameFault(NameRule.FINAL_JOINT, 7, b'>'), NameFault(NameRule.DOTS, 4, b'>..>')]
        self.assertEqual([str(fault) for fault in faults],
                         [sentence.format(length=81, LONGEST=80, place=fault.place, byte=31, letter='<')
                          for sentence, fault in zip(sentences, faults)])
        self.assertEqual(len(sentences), len(faults))


def defined():
    """The public names that the text of the module defines, and not those that it imports."""
    for node in ast.parse(inspect.getsource(tapermoss)).body:
        if isinstance(node, (ast.FunctionDef, ast.ClassDef)):
            names = [node.name]
        else:
            found = (part for part in ast.walk(node) if isinstance(part, ast.Name))
            names = [name.id for name in found if isinstance(name.ctx, ast.Store)]
        yield from (name for name in names if not name.startswith('_'))


def functions():
    """Every public function, and the module's own methods and properties of every public class."""
    for thing in (getattr(tapermoss, name) for name in defined()):
        parts = vars(thing).values() if inspect.isclass(thing) else [thing]
        for part in (part.fget if isinstance(part, property) else part for part in parts):
            if inspect.isfunction(part) and part.__module__ == tapermoss.__name__:
                yield part


class Names(unittest.TestCase):
    def test_all_has_the_public_names(self):
        self.assertEqual(sorted(tapermoss.__all__), sorted(defined()))

    def test_every_function_has_its_hints(self):
        found = list(functions())
        self.assertGreater(len(found), 20)
        for function in found:
            with self.subTest(function=function.__qualname__):
                asked = {'return', *inspect.signature(function).parameters} - {'self'}
                self.assertEqual(set(typing.get_type_hints(function)), asked)

    def test_every_field_has_its_hint(self):
        named = {tapermoss.Summary: ['files', 'owned', 'free'], tapermoss.Shown: ['view', 'source'],
                 tapermoss.Target: ['lbn'], tapermoss.Row: ['lbn', 'level', 'what', 'name', 'path'],
                 tapermoss.Tree: ['complete'],
                 tapermoss.Created: ['file', 'made'], tapermoss.NameFault: ['rule', 'place', 'found'],
                 tapermoss.Refused: ['number', 'block', 'fault'],
                 tapermoss.Answer: [name for name, _ in tapermoss.Answer._fields_]}
        for kind, fields in named.items():
            with self.subTest(kind=kind.__name__):
                self.assertEqual(list(typing.get_type_hints(kind)), fields)

    def test_what_is_changed_is_hinted_as_writable(self):
        for call in (tapermoss.create, tapermoss.write, tapermoss.describe, tapermoss.destroy, tapermoss.repair):
            self.assertEqual(typing.get_type_hints(call)['image'], tapermoss.Writable)
        for call in (tapermoss.read, tapermoss.extract):
            hints = typing.get_type_hints(call)
            self.assertEqual((hints['image'], hints['buffer']), (tapermoss.Readable, tapermoss.Writable))
        for call in (tapermoss.look_up, tapermoss.tree):
            hints = typing.get_type_hints(call)
            self.assertEqual((hints['image'], hints['rule']), (tapermoss.Readable, tapermoss.Readable))


class Arguments(unittest.TestCase):
    def test_too_many_or_too_few_are_a_type_error(self):
        asked = {'lbn_to_pda': [0, 0], 'check': [b'', 0, 1], 'show_pair': [b'', b'', 0, 1, 2, 0],
                 'tree': [b'', 0, 1, b'', bytearray()], 'write': [bytearray(), 0, 1, 2, 0, b'', 9]}
        for name, arguments in asked.items():
            right = len(arguments)
            for wrong in (arguments + [0], arguments + [b''], arguments + [0] * 9, arguments[:-1], []):
                with self.subTest(call=name, count=len(wrong)), self.assertRaises(TypeError) as caught:
                    tapermoss.call(name, *wrong)
                sentence = f'{name} takes {right} arguments, an object with bytes counting as one, not {len(wrong)}'
                self.assertEqual(str(caught.exception), sentence)

    def test_the_right_number_is_taken(self):
        self.assertEqual(tapermoss.call('lbn_to_pda', 0, 0).outcome, 0)
        with self.assertRaises(TypeError) as caught:
            tapermoss.call('lbn_to_pda', 0, b'0')
        self.assertEqual(str(caught.exception), 'a number is wanted, not bytes')


FIRST_CALL = '''
import tapermoss
try:
    tapermoss.lbn_to_pda(0, 0)
except OSError as problem:
    print(problem)
'''


class Library(unittest.TestCase):
    def says(self, sentence, **settings):
        status, said = python('-c', FIRST_CALL, **settings)
        self.assertEqual(status, 0, said)
        self.assertTrue(said.startswith(sentence), said)
        self.assertIn('run `make python`', said)

    def test_a_library_that_is_not_there(self):
        with tempfile.TemporaryDirectory() as folder:
            path = os.path.join(folder, 'nowhere', 'libperq.so')
            self.says(f'the library {path} is not there', PYTHONPATH=FOLDER, TAPERMOSS_LIBRARY=path)

    def test_a_checkout_without_a_library(self):
        with tempfile.TemporaryDirectory() as folder:
            module, path = os.path.join(folder, 'host', 'python'), os.path.join(folder, 'build', 'libperq.so')
            os.makedirs(module)
            shutil.copy(os.path.join(FOLDER, 'tapermoss.py'), module)
            self.says(f'the library {path} is not there', PYTHONPATH=module)
            self.says(f'the library {path} is not there', PYTHONPATH=module, TAPERMOSS_LIBRARY='')

    def test_a_file_that_is_no_library(self):
        with tempfile.NamedTemporaryFile(suffix='.so') as file:
            self.says(f'the library {file.name} cannot be loaded', PYTHONPATH=FOLDER, TAPERMOSS_LIBRARY=file.name)
