"""A sample image, put together word by word: no changing call is needed for it."""
from tapermoss import RECORD, lbn_to_lda, lbn_to_pda

FIB = 65535


def set_words(image, block, word, *values):
    """Sets words of a record: 0 to 7 are the header's, data word k is word 8 + k."""
    for i, value in enumerate(values):
        at = RECORD * block + 2 * (word + i)
        image[at:at + 2] = (value & 65535).to_bytes(2, 'little')


def set_pair(image, block, word, value):
    set_words(image, block, word, value & 65535, value >> 16)


def link(image, drive, blocks, serial=None, first=None):
    """Links blocks both ways; with a serial they are a file's, numbered from `first` on."""
    for i, block in enumerate(blocks):
        if serial is not None:
            set_pair(image, block, 0, lbn_to_pda(drive, serial))
            set_words(image, block, 2, first + i)
        set_pair(image, block, 4, lbn_to_pda(drive, blocks[i + 1]) if i + 1 < len(blocks) else 0)
        set_pair(image, block, 6, lbn_to_pda(drive, blocks[i - 1]) if i else 0)


def content(r):
    return bytes((r + i) % 256 for i in range(512))


def lay_file(image, drive, f, blocks):
    """A file of which f is the own block; its data stand in the blocks after it, in their order."""
    data = list(range(f + 1, f + 1 + len(blocks)))
    link(image, drive, [f, *data], serial=f, first=-1)
    for r, block in enumerate(data):
        set_pair(image, f, 8 + 52 + 2 * r, lbn_to_lda(drive, block))
        image[RECORD * block + 16:RECORD * (block + 1)] = blocks[r]
    set_words(image, f, 8 + 248, 5, 1 + len(data), len(data) - 1)
    set_pair(image, f, 8 + 251, lbn_to_lda(drive, data[-1] if data else f))
    set_words(image, f, 8 + 253, -1)
    set_pair(image, f, 8 + 254, lbn_to_lda(drive, f))


def sample(drive, n=40, blocks=3):
    """A sound partition from 1 to n - 1 with file 2 of so many blocks, the next ones after it."""
    image = bytearray(RECORD * n)
    free = list(range(3 + blocks, n))
    for word, block in ((8, free[0]), (10, free[-1]), (126, 1), (128, n - 1)):
        set_pair(image, 1, word, lbn_to_lda(drive, block))
    set_pair(image, 1, 12, len(free))
    lay_file(image, drive, 2, [content(r) for r in range(blocks)])
    link(image, drive, free)
    return image


def with_bits(image, blocks=3):
    """The sample of so many blocks with reserved bits in every LDA, others in each: in the partition's own block, and in
    the index and the last addresses of its file."""
    image = bytearray(image)
    spots = [(1, word) for word in (8, 10, 126, 128)]
    spots += [(2, 8 + 52 + 2 * r) for r in range(blocks)] + [(2, 8 + 251), (2, 8 + 254)]
    for bits, (block, word) in enumerate(spots, 1):
        image[RECORD * block + 2 * word] = 17 * bits % 256
    return image


def named(name):
    """A description of zeros but for this name."""
    return bytes(22) + bytes([len(name)]) + name + bytes(81 - len(name))


def malformed(drive):
    """The sample with a file block that says it uses 99 blocks."""
    image = sample(drive)
    set_words(image, 2, 8 + 249, 99)
    return image
