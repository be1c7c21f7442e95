"""tapermoss: the proved library for disk images of the PERQ workstation, from Python.

An image is any object that lends its bytes: bytes, bytearray, mmap, memoryview or array. The library works on those bytes
where they are; the changing calls want an object that can be written. `drive` is a Drive, `s` names a partition by its
first block, `f` a file by its own block, `r` a block of the file. A call that cannot do what it is asked raises Refused,
and has then changed nothing. A block that a file does not have is None; an empty file has none at all. In the calls on
directories `rule` is the hash rule, which says in what blocks of a directory a name's entry is looked for: 26 bytes, or
none where it is not known, and then all blocks are. A name is bytes, for a disk does not say what letters they stand for.
describe refuses a name that cannot be typed, and `name` says what is wrong with it.

What a call changes, an image or a buffer, must not overlap with anything else that it is lent. A call that is given one
bytearray for both, or views of one that share a byte, raises ValueError and has changed nothing; views that lie apart are
taken. So a block that was shown is copied before it is written to the same image: bytes(block). What is only read may be
the same object, as both images of show_pair. Addresses are compared: of two maps of one file it cannot be seen that they
are the same bytes. Bytes of length 0 overlap with nothing: as an image they are refused by 1, as a buffer by 3 unless a file
without blocks is extracted; as a rule they are none, as a path the root.

    from tapermoss import Drive, check, files, show

    with open('disk.img', 'rb') as file:
        image = file.read()
    print(check(image, Drive.FLOPPY, 6))
    for f in files(image, Drive.FLOPPY, 6):
        block = show(image, Drive.FLOPPY, 6, f, 0)
        print(f, 'empty' if block is None else bytes(block[:16]))

The first call loads the shared object: the file that TAPERMOSS_LIBRARY names, or else the one that was installed with
this module, or else build/libperq.so of the checkout, which `make python` makes.
"""
import array
import contextlib
import ctypes
import enum
import functools
import itertools
import mmap
import operator
import os
import pickle
from collections.abc import Iterator
from typing import Any, NamedTuple, Optional, Union

__all__ = [
    'RECORD', 'DATA', 'DESCRIPTION', 'ROW', 'ALL', 'Writable', 'Readable',
    'Drive', 'Source', 'Summary', 'Shown', 'Target', 'What', 'Row', 'Tree', 'Created', 'NameRule', 'NameFault', 'Refused',
    'Answer',
    'call',
    'lbn_to_pda', 'pda_to_lbn', 'lbn_to_lda', 'lda_to_lbn', 'lbn_to_fileid', 'fileid_to_lbn',
    'check', 'next_file', 'files', 'read', 'show', 'show_pair', 'description', 'extract', 'whole_file',
    'look_up', 'tree',
    'blank', 'create', 'write', 'describe', 'name', 'destroy', 'repair',
]

RECORD = 528
DATA = 512
DESCRIPTION = 104
#: The bytes of a row as the library fills it.
ROW = 32
#: The limit that cuts no changing call short.
ALL = 2 ** 32 - 1

#: What lends its bytes to be changed, and what lends them at all.
Writable = Union[bytearray, memoryview, mmap.mmap, array.array]
Readable = Union[bytes, Writable]

_DONE, _ABSENT, _REFUSED = range(3)
#: The byte of a description that has the length of the name; its characters follow.
_NAME_AT = 2 * 11
#: How many rows of a tree are asked for first.
_FIRST_ROWS = 64


class Drive(enum.IntEnum):
    """The four drives, by their numbers."""
    SHUGART12 = 0
    SHUGART24 = 1
    MICROPOLIS35 = 2
    FLOPPY = 3

    @property
    def blocks(self) -> int:
        """The most blocks that an image of the drive has; LBNs are below it."""
        return (24210, 48450, 69552, 432)[self]


class Source(enum.Enum):
    """Which image of a pair has answered."""
    REPAIRED = 1
    ORIGINAL = 2


class Summary(NamedTuple):
    """What a sound partition holds: so many files, blocks that they own, and free blocks."""
    files: int
    owned: int
    free: int


class Shown(NamedTuple):
    """What show_pair found: a view of the block or None, and the image that answered."""
    view: Optional[memoryview]
    source: Source


class Target(NamedTuple):
    """What a path leads to: a file by its block, or None where the entry is dangling: there, but it names no file."""
    lbn: Optional[int]


class What(enum.Enum):
    """What an entry of a directory names: a file that is no directory, one that is, or no file of the partition."""
    FILE = 0
    DIRECTORY = 1
    DANGLING = 2


class Row(NamedTuple):
    """An entry of a tree: the block of the file it names or None if it is dangling, the level of the directory it stands
    in, 1 for the root, its name as it stands on the disk, and the names from the root down to it, joined by `>`. The path
    leads back here unless a name has a `>` in it or the same name stands earlier in its directory."""
    lbn: Optional[int]
    level: int
    what: What
    name: bytes
    path: bytes


class Tree(Iterator[Row]):
    """The rows of a tree one after the other; `complete` says whether there are none behind the last."""
    complete: bool

    def __init__(self, filled: bytearray, complete: bool) -> None:
        self.complete = complete
        self._rows = _rows(filled)

    def __next__(self) -> Row:
        return next(self._rows)


def _rows(filled: bytearray) -> Iterator[Row]:
    """The rows that the library filled, each with its path."""
    # The path of the entry last seen at each level: above a row stands the one of the level before.
    last: list[bytes] = []
    for at in range(0, len(filled), ROW):
        row = bytes(filled[at:at + ROW])
        level, what, name = row[4], What(row[5]), row[7:7 + row[6]]
        del last[level - 1:]
        last.append(last[-1] + b'>' + name if last else name)
        lbn = None if what is What.DANGLING else int.from_bytes(row[:4], 'little')
        yield Row(lbn, level, what, name, last[-1])


class Created(NamedTuple):
    """What create made: the new file's block, and how many stores were made."""
    file: int
    made: int


class NameRule(enum.IntEnum):
    """What describe asks of a name: 1 to 80 characters, none of them a control character (below 32, or 127), none `<`, `/`
    or `:`, no `>` at the end, and no `>.>` or `>..>`."""
    LENGTH = 1
    CONTROL = 2
    RESERVED = 3
    FINAL_JOINT = 4
    DOTS = 5


class NameFault(NamedTuple):
    """The first fault of a name: the rule that it breaks, the place of the character that does, counted from 1, or 0 for the
    length, and the bytes that stand there: the length's, the one character, or `>.>` or `>..>`."""
    rule: NameRule
    place: int
    found: bytes

    def __str__(self) -> str:
        place, byte = self.place, self.found[0]
        if self.rule is NameRule.LENGTH:
            return f'the name has {byte} characters, and 80 is the most' if byte else 'the name has no characters'
        if self.rule is NameRule.CONTROL:
            return f'character {place} of the name is a control character ({byte})'
        if self.rule is NameRule.RESERVED:
            return f'character {place} of the name is "{chr(byte)}", which no name may have'
        if self.rule is NameRule.FINAL_JOINT:
            return 'the name ends in ">"'
        return f'"{self.found.decode("ascii")}" stands at character {place} of the name'


_SENTENCES = {
    1: 'the image is empty, not made of 528-byte records, or too long for the drive',
    2: 'no good partition starts at this block',
    3: 'the buffer, the hash rule or the rows have a length that the call does not take',
    4: 'block {} is a malformed file block',
    5: 'the partition is not sound; repair mends it unless no block is free',
    6: 'this block, or the root directory, is no file of the partition',
    7: 'the block number is beyond what the file can have',
    8: 'the partition has too few free blocks',
    9: 'the partition has no free block, so there is no chain to repair',
    10: 'this number is no block, address or FileID of the drive',
    11: 'the directory at block {} is of the tenth level, and only nine are looked into',
    12: 'the name is one that describe does not take',
}


class Refused(Exception):
    """A call that was refused: `number` says why, from 1 to 12; `block` is the malformed file block under number 4, the
    directory of the tenth level under number 11; `fault` is what is wrong with the name under number 12, and else None."""
    number: int
    block: int
    fault: Optional[NameFault]

    def __init__(self, number: int, block: int = 0, fault: Optional[NameFault] = None) -> None:
        # copy and pickle make a refusal anew by calling the class with these.
        super().__init__(number, block, fault)
        self.number = number
        self.block = block
        self.fault = fault

    def __str__(self) -> str:
        sentence = _SENTENCES.get(self.number, 'the number is not known').format(self.block)
        return f'refused ({self.number}): {self.fault or sentence}'


class Answer(ctypes.Structure):
    """The answer of every call, field by field; a field that a call does not speak of is 0."""
    outcome: int
    number: int
    block: int
    made: int
    a: int
    b: int
    c: int
    _fields_ = [(name, ctypes.c_uint32) for name in ('outcome', 'number', 'block', 'made', 'a', 'b', 'c')]


# --- The library and the bytes that it is lent ---

class _Changed(ctypes.c_void_p):
    """The address of bytes that the call changes."""


_BYTES, _CHANGED = [ctypes.c_void_p, ctypes.c_size_t], [_Changed, ctypes.c_size_t]
_U32, _U16 = ctypes.c_uint32, ctypes.c_uint16
_SIGNATURES = {
    'lbn_to_pda': [_U32] * 2,
    'pda_to_lbn': [_U32] * 2,
    'lbn_to_lda': [_U32] * 2,
    'lda_to_lbn': [_U32] * 2,
    'lbn_to_fileid': [_U32] * 2,
    'fileid_to_lbn': [_U32] * 2,
    'check': _BYTES + [_U32] * 2,
    'next_file': _BYTES + [_U32] * 3,
    'read': _BYTES + [_U32] * 4 + _CHANGED,
    'show': _BYTES + [_U32] * 4,
    'show_pair': _BYTES + _BYTES + [_U32] * 4,
    'description': _BYTES + [_U32] * 3 + _CHANGED,
    'extract': _BYTES + [_U32] * 3 + _CHANGED,
    'name': _BYTES,
    'look_up': _BYTES + [_U32] * 2 + _BYTES + _BYTES,
    'tree': _BYTES + [_U32] * 2 + _BYTES + _CHANGED,
    'create': _CHANGED + [_U32] * 2 + [_U16, _U32],
    'write': _CHANGED + [_U32] * 4 + _BYTES + [_U32],
    'describe': _CHANGED + [_U32] * 3 + _BYTES + [_U32],
    'destroy': _CHANGED + [_U32] * 4,
    'repair': _CHANGED + [_U32] * 3,
}
_MOST = {_U32: 2 ** 32 - 1, _U16: 2 ** 16 - 1}


def _path() -> str:
    """Where the library is looked for."""
    here = os.path.dirname(os.path.abspath(__file__))
    installed = os.path.join(here, 'libperq.so')
    built = os.path.normpath(os.path.join(here, '..', '..', 'build', 'libperq.so'))
    return os.environ.get('TAPERMOSS_LIBRARY') or (installed if os.path.exists(installed) else built)


@functools.lru_cache(maxsize=None)
def _library() -> ctypes.CDLL:
    path = _path()
    try:
        return ctypes.CDLL(path)
    except OSError as problem:
        what = f'cannot be loaded ({problem})' if os.path.exists(path) else 'is not there'
        raise OSError(f'the library {path} {what}: run `make python`, or name another by TAPERMOSS_LIBRARY') from None


@functools.lru_cache(maxsize=None)
def _function(name: str) -> Any:
    try:
        function = getattr(_library(), 'perq_' + name)
    except AttributeError:
        raise NotImplementedError(f'the library does not export perq_{name}') from None
    function.argtypes, function.restype = _SIGNATURES[name], Answer
    return function


class _Buffer(ctypes.Structure):
    """CPython's Py_buffer."""
    _fields_ = [
        ('address', ctypes.c_void_p), ('owner', ctypes.c_void_p), ('length', ctypes.c_ssize_t),
        ('item_size', ctypes.c_ssize_t), ('read_only', ctypes.c_int), ('dimensions', ctypes.c_int),
        ('format', ctypes.c_char_p), ('shape', ctypes.c_void_p), ('strides', ctypes.c_void_p),
        ('suboffsets', ctypes.c_void_p), ('internal', ctypes.c_void_p),
    ]


_get_buffer = ctypes.pythonapi.PyObject_GetBuffer
_get_buffer.argtypes = [ctypes.py_object, ctypes.POINTER(_Buffer), ctypes.c_int]
_release_buffer = ctypes.pythonapi.PyBuffer_Release
_release_buffer.argtypes, _release_buffer.restype = [ctypes.POINTER(_Buffer)], None


@contextlib.contextmanager
def _lent(thing: Readable, writable: bool = False) -> Iterator[tuple[int, int]]:
    """The address, 0 for NULL, and the length of an object's own bytes, which stay in their place meanwhile."""
    buffer = _Buffer()
    _get_buffer(thing, ctypes.byref(buffer), 1 if writable else 0)
    try:
        yield buffer.address or 0, buffer.length
    finally:
        _release_buffer(ctypes.byref(buffer))


class _Piece(NamedTuple):
    """The bytes that a call is lent at one place of its arguments, counted from 1."""
    place: int
    address: int
    length: int
    changed: bool


def call(name: str, *arguments: Union[int, Readable]) -> Answer:
    """Makes a call of include/perq.h as it is; answers its Answer. An object with bytes stands for an address and a
    length. One whose bytes the call changes must be writable, and must not overlap with any other."""
    function = _function(name)
    # Each address has its length behind it, and the two are one argument.
    wanted = len(function.argtypes) - sum(issubclass(kind, ctypes.c_void_p) for kind in function.argtypes)
    if len(arguments) != wanted:
        raise TypeError(f'{name} takes {wanted} arguments, an object with bytes counting as one, not {len(arguments)}')
    with contextlib.ExitStack() as stack:
        passed: list[int] = []
        pieces: list[_Piece] = []
        for place, argument in enumerate(arguments, 1):
            kind = function.argtypes[len(passed)]
            if isinstance(argument, int):
                _must_fit(argument, kind)
                passed.append(argument)
            elif kind in _MOST:
                # Its address would be taken for the number, and all that follows for something else.
                raise TypeError(f'a number is wanted, not {type(argument).__name__}')
            else:
                changed = kind is _Changed
                address, length = stack.enter_context(_lent(argument, changed))
                passed += address, length
                pieces.append(_Piece(place, address, length, changed))
        _must_lie_apart(name, pieces)
        return function(*passed)


def _must_lie_apart(name: str, pieces: list[_Piece]) -> None:
    """What a call changes and what else it is lent may have no byte in common; no bytes have none."""
    for changed, other in itertools.permutations(pieces, 2):
        first, end = max(changed.address, other.address), min(changed.address + changed.length, other.address + other.length)
        if changed.changed and first < end:
            raise ValueError(f'{name} changes the bytes of argument {changed.place}, and those of argument {other.place} '
                             'overlap with them')


def _must_fit(number: int, kind: Any) -> None:
    """A number that C would cut off is an error."""
    if not 0 <= number <= _MOST.get(kind, -1):
        raise OverflowError(f'{number} is no number for this argument')


def _given(answer: Answer) -> Answer:
    """The answer, unless it is a refusal."""
    if answer.outcome == _REFUSED:
        raise Refused(answer.number, answer.block)
    return answer


def _flat(thing: Readable) -> memoryview:
    """An object's own bytes in one row, whatever its shape."""
    # memoryview.cast raises TypeError for bytes with gaps, and for none at all in two dimensions.
    return pickle.PickleBuffer(thing).raw()


def _view(image: Readable, answer: Answer) -> Optional[memoryview]:
    """The part of an image that an answer of show names, a view and not a copy, or None if the file ends before it."""
    if answer.outcome == _ABSENT:
        return None
    return _flat(image)[answer.a:answer.a + answer.b].toreadonly()


# --- Conversions ---

def lbn_to_pda(drive: int, lbn: int) -> int:
    """The physical disk address of a block, as headers hold it: low word + 65,536 * high word."""
    return _given(call('lbn_to_pda', drive, lbn)).a


def pda_to_lbn(drive: int, pda: int) -> int:
    """The block of a physical disk address."""
    return _given(call('pda_to_lbn', drive, pda)).a


def lbn_to_lda(drive: int, lbn: int) -> int:
    """The logical disk address of a block, as indexes hold it: low word + 65,536 * high word. Its reserved bits are zero."""
    return _given(call('lbn_to_lda', drive, lbn)).a


def lda_to_lbn(drive: int, lda: int) -> int:
    """The block of a logical disk address. Its reserved bits, the lowest eight, are ignored."""
    return _given(call('lda_to_lbn', drive, lda)).a


def lbn_to_fileid(drive: int, lbn: int) -> int:
    """The FileID of a block."""
    return _given(call('lbn_to_fileid', drive, lbn)).a


def fileid_to_lbn(drive: int, fileid: int) -> int:
    """The block of a FileID."""
    return _given(call('fileid_to_lbn', drive, fileid)).a


# --- Reading ---

def check(image: Readable, drive: int, s: int) -> Summary:
    """What a sound partition holds."""
    answer = _given(call('check', image, drive, s))
    return Summary(answer.a, answer.b, answer.c)


def next_file(image: Readable, drive: int, s: int, after: int = 0) -> Optional[int]:
    """The lowest file above the block `after`, or None."""
    answer = _given(call('next_file', image, drive, s, after))
    return answer.a if answer.outcome == _DONE else None


def files(image: Readable, drive: int, s: int) -> Iterator[int]:
    """The files of a partition one after the other; malformed ones are passed over."""
    f = next_file(image, drive, s)
    while f is not None:
        yield f
        f = next_file(image, drive, s, f)


def read(image: Readable, drive: int, s: int, f: int, r: int, buffer: Writable) -> bool:
    """Copies a block of a file to the buffer of 512 bytes, or zeros if the file ends before it; answers whether it has
    the block."""
    return _given(call('read', image, drive, s, f, r, buffer)).outcome == _DONE


def show(image: Readable, drive: int, s: int, f: int, r: int) -> Optional[memoryview]:
    """A block of a file as a view of the image's own bytes, or None if the file ends before it."""
    return _view(image, _given(call('show', image, drive, s, f, r)))


def show_pair(original: Readable, repaired: Readable, drive: int, s: int, f: int, r: int) -> Shown:
    """As show on the repaired image or, where that is refused, as show on the original, its refusal included."""
    answer = _given(call('show_pair', original, repaired, drive, s, f, r))
    source = Source(answer.c)
    return Shown(_view(repaired if source is Source.REPAIRED else original, answer), source)


def description(image: Readable, drive: int, s: int, f: int) -> bytes:
    """The 104 bytes of a file's description."""
    buffer = bytearray(DESCRIPTION)
    _given(call('description', image, drive, s, f, buffer))
    return bytes(buffer)


def extract(image: Readable, drive: int, s: int, f: int, buffer: Writable) -> int:
    """Copies a whole file to the buffer, which has 512 bytes for each block; answers how many blocks these are."""
    return _given(call('extract', image, drive, s, f, buffer)).a


def whole_file(image: Readable, drive: int, s: int, f: int) -> bytearray:
    """The bytes of a whole file."""
    # The file's word for its last block sizes the buffer; whether f is a file at all is the library's to say.
    at = RECORD * f + 16 + 2 * 250
    last = int.from_bytes(_flat(image)[at:at + 2], 'little', signed=True)
    buffer = bytearray(DATA * max(last + 1, 0))
    extract(image, drive, s, f, buffer)
    return buffer


# --- Directories ---

def look_up(image: Readable, drive: int, s: int, path: Union[Readable, str], rule: Readable = b'') -> Optional[Target]:
    """What a path leads to from the partition's root directory, or None if it is not there. A path is names joined by
    `>`, compared without case; the empty one is the root. A str must be ASCII; a name with other bytes is given as bytes.
    The rule comes last, so that it can be left out; in C and in Rust it stands before the path.

        target = look_up(image, Drive.FLOPPY, 1, 'Mail>Memo')
        if target is None:
            print('not there')
        elif target.lbn is None:
            print('dangling')
        else:
            print('file', target.lbn)
    """
    path = path.encode('ascii') if isinstance(path, str) else path
    answer = _given(call('look_up', image, drive, s, rule, path))
    if answer.outcome == _ABSENT:
        return None
    return Target(None if answer.b else answer.a)


def tree(image: Readable, drive: int, s: int, rule: Readable = b'', most: int = 65536) -> Tree:
    """The entries of the root directory and of the directories below it, depth first, so many at most. They are those
    at the time of the call, whatever becomes of the image. A file that several entries name comes up under each, so a
    small image may have more entries than fit any memory: `most` is what the caller can hold.

        rows = tree(image, Drive.FLOPPY, 1)
        for row in rows:
            print(row.lbn, row.what.name, row.path.decode('latin-1'))
        if not rows.complete:
            print('and more')
    """
    most = operator.index(most)
    if most < 0:
        raise OverflowError(f'{most} is no number of rows')
    room = min(most, _FIRST_ROWS)
    while True:
        rows = bytearray(ROW * room)
        answer = _given(call('tree', image, drive, s, rule, rows))
        if not answer.b or room == most:
            del rows[ROW * answer.a:]
            return Tree(rows, not answer.b)
        room = min(most, 2 * room)


# --- Changing ---

def blank(drive: int, n: int, s: int, e: int) -> bytearray:
    """An image of n records, zero but for the start and the end of one partition; repair makes it a fresh one."""
    if not 0 < s < e < n <= Drive(drive).blocks:
        raise ValueError(f'blocks {s} to {e} of {n} are no partition of the drive')
    image = bytearray(RECORD * n)
    for word, block in ((118, s), (120, e)):
        at = RECORD * s + 16 + 2 * word
        image[at:at + 4] = lbn_to_lda(drive, block).to_bytes(4, 'little')
    return image


def create(image: Writable, drive: int, s: int, kind: int = 0, limit: int = ALL) -> Created:
    """Makes an empty file."""
    answer = _given(call('create', image, drive, s, kind, limit))
    return Created(answer.a, answer.made)


def write(image: Writable, drive: int, s: int, f: int, r: int, data: Readable, limit: int = ALL) -> int:
    """Replaces a block of a file by 512 bytes, or appends it; answers how many stores were made."""
    return _given(call('write', image, drive, s, f, r, data, limit)).made


def describe(image: Writable, drive: int, s: int, f: int, description: Readable, limit: int = ALL) -> int:
    """Sets the 104 bytes of a file's description; answers how many stores were made. A bad name in them is refused by 12;
    the refusal's `fault` is what `name` says of it."""
    answer = call('describe', image, drive, s, f, description, limit)
    if answer.number == 12:
        raise Refused(answer.number, fault=name(description))
    return _given(answer).made


def name(description: Readable) -> Optional[NameFault]:
    """What describe says of the name in a description: None if it takes it, or else why it does not. The name is bytes 22 to
    103, the first of which is its length.

        fault = name(description)
        if fault is not None:
            print(fault.rule.name, fault.place, fault)
    """
    answer = _given(call('name', description))
    if not answer.a:
        return None
    rule, at = NameRule(answer.a), _NAME_AT + answer.b
    behind = bytes(_flat(description)[at:at + 4])
    found = behind[:behind.index(b'>', 1) + 1] if rule is NameRule.DOTS else behind[:1]
    return NameFault(rule, answer.b, found)


def destroy(image: Writable, drive: int, s: int, f: int, limit: int = ALL) -> int:
    """Gives the blocks of a file to the free chain; answers how many stores were made."""
    return _given(call('destroy', image, drive, s, f, limit)).made


def repair(image: Writable, drive: int, s: int, limit: int = ALL) -> int:
    """Links every file and chains every free block anew; answers how many stores were made."""
    return _given(call('repair', image, drive, s, limit)).made
