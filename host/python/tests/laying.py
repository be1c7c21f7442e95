"""Partitions whose files are laid by rule: the lines `partition`, `file` and `chain` of a worked case."""
import functools
import re
import struct

import tapermoss

#: Each address is asked for once.
pda = functools.cache(tapermoss.lbn_to_pda)
lda = functools.cache(tapermoss.lbn_to_lda)


class Laying:
    """The blocks of each file by relative number, -1 being the FIB; ascending, they stand in the order of their links."""

    def __init__(self, line, drive, s):
        self.drive, self.s, self.e = drive, s, int(whole(r'partition (\d+)', line)[0])
        self.files, self.taken, self.chained = [], {s}, False

    def add(self, line):
        """Another line, a file or the chain, which comes last."""
        if self.chained:
            raise ValueError(f'a line comes after the chain: {line}')
        if line.split() == ['chain']:
            self.chained = True
            return
        form = r'file (\d+) kind (\d+) blocks (\d+) at (\d+) step (1|-1)'
        f, kind, count, at, step = map(int, whole(form, line))
        blocks = {relative: at + step * i for i, relative in enumerate(relatives(count))} | {-1: f}
        places = set(blocks.values())
        if len(places) < len(blocks) or places & self.taken or not self.s < min(places) <= max(places) <= self.e:
            raise ValueError(f'the blocks of a file are taken or not there: {line}')
        self.taken |= places
        self.files.append((kind, dict(sorted(blocks.items()))))

    def into(self, image):
        self.addresses(image, self.s, 118, self.s, self.e)
        for kind, blocks in self.files:
            self.lay_file(image, kind, blocks)
        if self.chained:
            free = [b for b in range(self.s, self.e + 1) if b not in self.taken]
            self.link(image, free)
            for b in free:
                words(image, b, 3, free[0] & 0xFFFF)
            self.addresses(image, self.s, 0, free[0], free[-1])
            pair(image, self.s, 8 + 4, len(free))

    def lay_file(self, image, kind, blocks):
        f, numbers = blocks[-1], list(blocks)
        self.link(image, list(blocks.values()))
        for relative, b in blocks.items():
            pair(image, b, 0, pda(self.drive, f))
            words(image, b, 2, relative & 0xFFFF)
            if relative >= 0:
                words(image, b, 8, relative)
            if relative != -1:
                holder, word = entry(relative)
                self.addresses(image, blocks[holder], word, b)
        words(image, f, 8 + 248, kind, len(blocks))
        for word, relative in ((250, numbers[-1]), (253, numbers[0])):
            words(image, f, 8 + word, relative & 0xFFFF)
            self.addresses(image, f, word + 1, blocks[relative])

    def link(self, image, blocks):
        """Links the blocks both ways in this order."""
        for before, b in zip(blocks, blocks[1:]):
            pair(image, before, 4, pda(self.drive, b))
            pair(image, b, 6, pda(self.drive, before))

    def addresses(self, image, b, word, *blocks):
        """The LDAs of these blocks stand in block b from this data word on."""
        for i, to in enumerate(blocks):
            pair(image, b, 8 + word + 2 * i, lda(self.drive, to))


def whole(form, line):
    found = re.fullmatch(form, line.strip())
    if not found:
        raise ValueError(f'a line is not whole: {line}')
    return found.groups()


def words(image, b, word, *values):
    struct.pack_into(f'<{len(values)}H', image, tapermoss.RECORD * b + 2 * word, *values)


def pair(image, b, word, value):
    words(image, b, word, value & 0xFFFF, value >> 16)


def relatives(count):
    """The relative numbers, but the FIB's, of a file with so many data blocks, ascending."""
    pointers = (max(count - 64, 0) + 127) // 128
    doubles = (max(pointers - 32, 0) + 127) // 128
    return [*range(-3 - pointers, -3), *range(-1 - doubles, -1), *range(count)]


def entry(relative):
    """Where the address of a block stands: in the block with which relative number, from which data word on."""
    if relative >= 64:
        return -4 - (relative - 64) // 128, 2 * ((relative - 64) % 128)
    if relative >= 0:
        return -1, 52 + 2 * relative
    if relative >= -3:
        return -1, 244 + 2 * (-2 - relative)
    if relative >= -35:
        return -1, 180 + 2 * (-4 - relative)
    if relative >= -163:
        return -2, 2 * (-36 - relative)
    return -3, 2 * (-164 - relative)
