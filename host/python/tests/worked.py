"""The worked cases of tests/worked, read as they stand there: an image, and calls with their whole answers."""
import os
import re
from typing import NamedTuple

import tapermoss

from .laying import Laying

FOLDER = os.path.join(os.path.dirname(__file__), '..', '..', '..', 'tests', 'worked')
REQUEST_1 = os.path.join(FOLDER, 'request-1.txt')
#: The calls whose buffer's sum stands in a case, those that change the image, and those that take none.
SUMMED = {'read', 'description', 'tree'}
CHANGES = {'create', 'write', 'describe', 'destroy', 'repair'}
CONVERSIONS = {'lbn_to_pda', 'pda_to_lbn', 'lbn_to_lda', 'lda_to_lbn', 'lbn_to_fileid', 'fileid_to_lbn'}


def files():
    """Every file of cases that is there."""
    return sorted(os.path.join(FOLDER, name) for name in os.listdir(FOLDER) if name.endswith('.txt'))


class Put(NamedTuple):
    """Bytes that go into the image, before the first call or between two."""
    at: int
    data: bytes

    def into(self, image):
        image[self.at:self.at + len(self.data)] = self.data


class Call(NamedTuple):
    """A call with its whole answer, the sums of the image and of the buffer after it, and the rows that it filled."""
    name: str
    arguments: list
    answer: tuple
    image_sum: int
    buffer_sum: int
    rows: list

    def made(self, image):
        """The answer of the library."""
        lent = () if self.name in CONVERSIONS else (image,)
        return tapermoss.call(self.name, *lent, *self.arguments)


def cases(path):
    """Each case as its number, an image of zeros, and what is laid, its puts and its calls in their order."""
    steps = None
    with open(path) as file:
        for line in file:
            words = line.split()
            if not words or words[0].startswith('#'):
                continue
            if (words[0] == 'case') == (steps is not None):
                raise ValueError(f'{path} has a line that is not between a case and its end, or a case that is: {line}')
            if words[0] == 'case':
                number, image, steps = int(words[1]), bytearray(tapermoss.RECORD * int(words[5])), []
                drive, s = int(words[3]), int(words[7])
            elif words[0] == 'partition' and not steps:
                steps.append(Laying(line, drive, s))
            elif words[0] in ('file', 'chain') and steps and isinstance(steps[-1], Laying):
                steps[-1].add(line)
            elif words[0] == 'put':
                steps.append(Put(int(words[1]), bytes.fromhex(words[2])))
            elif words[0] == 'call':
                steps.append(one_call(line))
            elif words[0] == 'row':
                steps[-1].rows.append((*map(int, words[1:4]), bytes.fromhex(words[4])))
            elif words[0] == 'end':
                if not any(isinstance(step, Call) for step in steps):
                    raise ValueError(f'{path} has a case without a call: {number}')
                yield number, image, steps
                steps = None
            else:
                raise ValueError(f'{path} has a line of no known kind: {line}')
    if steps is not None:
        raise ValueError(f'{path} has a case without an end: {number}')


def one_call(line):
    found = re.fullmatch(r'call (\w+) (.*?) ?-> ((?:\d+ ){7})image (\w+)(?: buffer (\w+))?\s*', line)
    if not found or (found.group(1) in SUMMED) != (found.group(5) is not None):
        raise ValueError(f'a call is not whole: {line}')
    name, arguments, answer, image_sum, buffer_sum = found.groups()
    answer = tuple(int(word) for word in answer.split())
    sums = int(image_sum, 16), None if buffer_sum is None else int(buffer_sum, 16)
    return Call(name, [argument(word) for word in arguments.split()], answer, *sums, [])


def argument(word):
    """A number, or a buffer that the call may fill."""
    kind, *rest = word.split(':')
    if kind == 'hex':
        return bytearray.fromhex(rest[0])
    if kind == 'pattern':
        length, k = map(int, rest)
        return bytearray((k + 7 * i + i // 128) % 256 for i in range(length))
    return int(word)
