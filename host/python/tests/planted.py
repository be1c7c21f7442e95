"""Images with directories, put together word by word: no call on directories and no changing call is needed for them."""
from tapermoss import RECORD, lbn_to_lda

from .sample import lay_file, set_pair, set_words

NIL = 0
ENTRIES = 16
DIRECTORY = 3


def entry(name, lda, flags=1):
    """The 32 bytes of an entry: bit 0 of the flags says that it is valid, then the target's address and the name."""
    return (flags.to_bytes(2, 'little') + lda.to_bytes(4, 'little') + bytes([len(name)]) + name).ljust(32, b'\0')


def block(entries):
    """The 512 bytes of a directory block: entries by their places, the others zero."""
    return b''.join(entries.get(place, bytes(32)) for place in range(ENTRIES))


def lay_directory(image, drive, f, *blocks):
    """A file with these blocks of entries whose description says that it is a directory."""
    lay_file(image, drive, f, [block(entries) for entries in blocks])
    set_words(image, f, 8 + 8, DIRECTORY)


def partition(drive, n, root):
    """An image with a partition from 1 to n - 1 whose root directory is to be at that block. Nothing else is set: what
    reads directories asks neither for the free chain nor for soundness."""
    image = bytearray(RECORD * n)
    for word, lbn in ((14, root), (126, 1), (128, n - 1)):
        set_pair(image, 1, word, lbn_to_lda(drive, lbn))
    return image


def planted(drive):
    """The root at 2 with blocks 3 and 4, the directory Mail at 6 with block 7, files at 5 and 8; 9 is no file's block."""
    image = partition(drive, 12, 2)
    at = [lbn_to_lda(drive, lbn) for lbn in range(12)]
    first = {0: entry(b'Notes.txt', at[5]), 3: entry(b'Mail', at[6]), 5: entry(b'Erased', at[5], flags=0),
             15: entry(b'Gone', NIL)}
    lay_directory(image, drive, 2, first, {1: entry(b'News', at[5]), 2: entry(b'MAIL', at[8])})
    lay_directory(image, drive, 6, {2: entry(b'Memo', at[8]), 9: entry(b'Lost', at[9])})
    for f in (5, 8):
        lay_file(image, drive, f, [])
    return image


def chain(drive, levels):
    """Directories one below the other, that of level k at block 2 k; each names the next one D, the last a file F."""
    image = partition(drive, 2 * levels + 3, 2)
    for f in range(2, 2 * levels + 1, 2):
        last = f == 2 * levels
        lay_directory(image, drive, f, {0: entry(b'F' if last else b'D', lbn_to_lda(drive, f + 2))})
    lay_file(image, drive, 2 * levels + 2, [])
    return image


def wide(drive, blocks):
    """A root at 2 of so many full blocks; every entry names the one file after it, and the names are numbers."""
    image = partition(drive, 4 + blocks, 2)
    file = 3 + blocks
    whole = [{place: entry(b'%d' % (ENTRIES * r + place), lbn_to_lda(drive, file)) for place in range(ENTRIES)}
             for r in range(blocks)]
    lay_directory(image, drive, 2, *whole)
    lay_file(image, drive, file, [])
    return image
