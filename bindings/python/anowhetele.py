"""Anowhetele: the nodes standing on a lot of a Luanti world, counted name by name, and what they cost. Bytes in, bytes out, over a library that is
proved.

    import anowhetele
    with open('world.wsh', 'rb') as file:
        tally = anowhetele.tally_sheet(file.read())
    for name, count in tally:
        print(count, name.decode())

A call that is refused raises Refused, with the number and words of the refusal, and where the fault lies.

Where bytes are taken, any bytes-like object will do: bytes, a bytearray, a memoryview, a mapped file, an array. The library reads it where it stands;
one that is not contiguous is copied first. During the call it cannot be resized or closed, and nobody may write it, neither another thread
nor, for a mapped file, another program. What comes back is new bytes.

A call that writes takes a room, the longest result wanted, and is refused 11 where the result is longer. Without a room every result is taken.

Each call may be made from any thread that has 1 MB of stack. The shared library is the one that ANOWHETELE_LIB names, or the one that
bindings/python/build makes. The Python is CPython, whose own functions are asked where an object's bytes stand.
"""
import ctypes
import enum
import functools
import operator
import os
import sys
from array import array
from ctypes import c_int, c_int32, c_int64, c_size_t, c_ssize_t, c_uint8, c_uint16, c_uint32, c_uint64, c_void_p
from mmap import mmap
from typing import Iterable, Iterator, NamedTuple, Optional, Tuple, Union

NODES = 4096

BytesLike = Union[bytes, bytearray, memoryview, mmap, array]


# numbers: made by bindings/make from bindings/numbers.txt
class Refusal(enum.IntEnum):
    """The numbers of documents 01 and 02 with which a call is refused."""
    ENDS_INSIDE = 1
    VERSION_OUTSIDE = 2
    POSITION_ABOVE = 4
    POSITION_TWICE = 5
    ID_TWICE = 6
    BYTES_AFTER = 7
    ID_UNMAPPED = 8
    OUT_OF_RANGE = 9
    BAD_PART = 10
    NO_ROOM = 11
    PARTS_MISFIT = 12
    TALLY_MALFORMED = 13
    TOO_MANY = 14
    SHEET_MALFORMED = 15
    NO_SUCH = 16
    CONTENT_WIDTH_DIFFERS = 31
    PARAMS_WIDTH_DIFFERS = 32
    METADATA_VERSION_DIFFERS = 33
    PRIVATE_BYTE_DIFFERS = 34
    TIMER_BYTE_DIFFERS = 35
    OBJECT_VERSION_DIFFERS = 36
    MAPPING_VERSION_DIFFERS = 37
    TIMER_ROW_LENGTH_DIFFERS = 38
    RATES_MALFORMED = 40


_TABLE = {
    # each refusal: whether it has an offset, and its words
    Refusal.ENDS_INSIDE: (True, 'the bytes end inside a field, or an inventory has no end line'),
    Refusal.VERSION_OUTSIDE: (True, 'the version is not 22 to 29'),
    Refusal.POSITION_ABOVE: (True, 'a position is above 4095'),
    Refusal.POSITION_TWICE: (True, 'a position stands in its list already'),
    Refusal.ID_TWICE: (True, 'an id is mapped already'),
    Refusal.BYTES_AFTER: (True, 'bytes follow the end of the block'),
    Refusal.ID_UNMAPPED: (True, 'a node has an id that is not mapped to a name'),
    Refusal.OUT_OF_RANGE: (False, 'a key or a coordinate is out of range'),
    Refusal.BAD_PART: (False, 'the lot is out of the world or turned round, or the span is turned round'),
    Refusal.NO_ROOM: (False, 'the result is longer than the output lent'),
    Refusal.PARTS_MISFIT: (False, 'the parts do not fit'),
    Refusal.TALLY_MALFORMED: (False, 'the tally is malformed'),
    Refusal.TOO_MANY: (False, 'a count or a total is above 2^64-1, or there are more than 2^32-1 rows'),
    Refusal.SHEET_MALFORMED: (False, 'the mark, the version or the framing of the sheet is wrong, or its keys do not rise'),
    Refusal.NO_SUCH: (False, 'there is no such row or node'),
    Refusal.CONTENT_WIDTH_DIFFERS: (True, 'the content width is not 1 up to version 23, or not 2 from version 24'),
    Refusal.PARAMS_WIDTH_DIFFERS: (True, 'the params width is not 2'),
    Refusal.METADATA_VERSION_DIFFERS: (True, 'the metadata list version is not 1 in version 22, not 0 or 1 in versions 23 to 27, or not 0 or 2 from version 28'),
    Refusal.PRIVATE_BYTE_DIFFERS: (True, 'the private byte of a metadata variable is not 0 or 1'),
    Refusal.TIMER_BYTE_DIFFERS: (True, 'the timer byte is not 0 in version 23, or not 0 or 1 in version 24'),
    Refusal.OBJECT_VERSION_DIFFERS: (True, 'the static object version is not 0'),
    Refusal.MAPPING_VERSION_DIFFERS: (True, 'the name mapping version is not 0'),
    Refusal.TIMER_ROW_LENGTH_DIFFERS: (True, 'the timer row length is not 10'),
    Refusal.RATES_MALFORMED: (False, 'the rate sheet is malformed'),
}
# end of numbers


class Refused(Exception):
    """A refused call. `offset` is where the field that was refused starts, from the first byte of its block or part; `record` is a sheet's, from 0,
    or the number of records where no record has the fault. Either is None where the number has none: those with an offset are the block's numbers,
    with which a block, or a row of one, is refused. `words` is what the number means, in a line that can be read out."""

    def __init__(self, number: int, offset: Optional[int] = 0, record: Optional[int] = None):
        self.refusal = Refusal(number)
        has_offset, self.words = _TABLE[self.refusal]
        self.offset = offset if has_offset else None
        self.record = record
        super().__init__(f'refused {self.number}{self._place()}: {self.words}')

    def __reduce__(self):
        """For pickle and copy: an exception is otherwise made anew from its text, which is no number."""
        return type(self), (self.number, self.offset, self.record), self.__dict__

    @property
    def number(self) -> int:
        return int(self.refusal)

    def _place(self) -> str:
        if self.offset is None:
            return '' if self.record is None else f' at record {self.record}'
        return f' at offset {self.offset}' + ('' if self.record is None else f' of record {self.record}')


# ---- The C structs and functions, as include/anowhetele.h declares them


def _struct(name, *fields):
    return type(name, (ctypes.Structure,), {'_fields_': list(fields)})


_Answer = _struct('_Answer', ('number', c_uint32), ('record', c_uint32), ('offset', c_uint64), ('length', c_uint64))
_Part = _struct('_Part', ('start', c_uint64), ('length', c_uint64))
_Lot = _struct('_Lot', *((name, c_int32) for name in ('x0', 'y0', 'z0', 'x1', 'y1', 'z1')))
_Span = _struct('_Span', ('from_', c_uint32), ('until', c_uint32))
_Head = _struct('_Head', ('version', c_uint8), ('flags', c_uint8), ('lighting', c_uint16), ('timestamp', c_uint32), ('timer_byte', c_uint8),
                ('list_form', c_uint8))
_Key = _struct('_Key', ('number', c_uint32), ('key', c_int64))
_Coordinates = _struct('_Coordinates', ('number', c_uint32), ('x', c_int32), ('y', c_int32), ('z', c_int32))
_Inside = _struct('_Inside', ('number', c_uint32), ('inside', c_uint32))
_Block = _struct('_Block', ('answer', _Answer), ('head', _Head), *((name, _Part) for name in ('names', 'metadata', 'objects', 'timers')))
_Node = _struct('_Node', ('answer', _Answer), ('name', _Part))
_NameRow = _struct('_NameRow', ('answer', _Answer), ('id', c_uint32), ('name', _Part))
_MetadataRow = _struct('_MetadataRow', ('answer', _Answer), ('position', c_uint32), ('kind', c_uint32), ('variables', c_uint32),
                       ('content', _Part), ('variable_rows', _Part), ('inventory', _Part))
_ObjectRow = _struct('_ObjectRow', ('answer', _Answer), ('kind', c_uint32), ('x', c_int32), ('y', c_int32), ('z', c_int32), ('data', _Part))
_TimerRow = _struct('_TimerRow', ('answer', _Answer), ('position', c_uint32), ('timeout', c_int32), ('elapsed', c_int32))
_Bill = _struct('_Bill', ('answer', _Answer), ('total', c_uint64), ('unpriced', c_uint64))

_BYTES = [c_void_p, c_size_t]
_OUT = [c_void_p, c_size_t]

_SIGNATURES = {
    'anow_key_join': (_Key, [c_int32] * 3),
    'anow_key_split': (_Coordinates, [c_int64]),
    'anow_lot_has': (_Inside, [_Lot] + [c_int32] * 3),
    'anow_span_has': (_Inside, [_Span, c_uint32]),
    'anow_light_count': (c_uint32, [c_uint16]),
    'anow_read': (_Block, _BYTES + _OUT * 3),
    'anow_sections': (_Block, _BYTES),
    'anow_node_name': (_Node, _BYTES + [c_uint64]),
    'anow_row_name': (_NameRow, _BYTES),
    'anow_row_metadata': (_MetadataRow, [c_uint8] + _BYTES),
    'anow_row_object': (_ObjectRow, _BYTES),
    'anow_row_timer': (_TimerRow, _BYTES),
    'anow_write': (_Answer, [_Head] + _OUT + _BYTES * 6 + _OUT),
    'anow_tally_check': (_Answer, _BYTES),
    'anow_tally_add': (_Answer, _OUT + [c_uint64] + _BYTES + [c_uint64]),
    'anow_tally_merge': (_Answer, _BYTES * 2 + _OUT),
    'anow_tally_block': (_Answer, [c_int64] + _BYTES + [_Lot, _Span] + _OUT),
    'anow_tally_sheet': (_Answer, _BYTES + [_Lot, _Span] + _OUT * 2),
    'anow_rates_check': (_Answer, _BYTES),
    'anow_price_block': (_Bill, [c_int64] + _BYTES * 2 + [_Lot, _Span]),
    'anow_price_sheet': (_Bill, _BYTES * 2 + [_Lot, _Span]),
}


def _load():
    here = os.path.dirname(os.path.abspath(__file__))
    # a name without a folder would be looked for among the system's libraries
    path = os.path.abspath(os.environ.get('ANOWHETELE_LIB') or os.path.join(here, '../../target/python/libanowhetele.so'))
    if not os.path.exists(path):
        raise ImportError(f'there is no {path}: run bindings/python/build in the repository, or name the library in ANOWHETELE_LIB')
    library = ctypes.CDLL(path)
    for name, (result, arguments) in _SIGNATURES.items():
        function = getattr(library, name)
        function.restype, function.argtypes = result, arguments
    return library


_library = _load()


# ---- Python's own functions


# Py_buffer, which has had these fields since Python 3.3
_Buffer = _struct('_Buffer', ('start', c_void_p), ('owner', c_void_p), ('length', c_ssize_t), ('item_size', c_ssize_t), ('read_only', c_int),
                  ('dimensions', c_int), *((name, c_void_p) for name in ('format', 'shape', 'strides', 'suboffsets', 'internal')))


def _python(name, result, *arguments):
    """A function object of this module alone: whoever else uses ctypes.pythonapi may declare the same function in another way."""
    return ctypes.PYFUNCTYPE(result, *arguments)((name, ctypes.pythonapi))


_get_buffer = _python('PyObject_GetBuffer', c_int, ctypes.py_object, ctypes.POINTER(_Buffer), c_int)
_release_buffer = _python('PyBuffer_Release', None, ctypes.POINTER(_Buffer))
_bytes_start = _python('PyBytes_AsString', c_void_p, ctypes.py_object)
# without a start the new bytes are not filled
_new_bytes = _python('PyBytes_FromStringAndSize', ctypes.py_object, c_void_p, c_ssize_t)


# ---- Numbers and bytes, on their way in and out


def _within(low, high, *values):
    """Whole numbers, as they are: ctypes would cut a number to its width in silence. TypeError for what is no whole number."""
    values = [operator.index(value) for value in values]
    for value in values:
        if not low <= value <= high:
            raise OverflowError(f'{value} is not in {low}..{high}')
    return values


def _s32(*values):
    return _within(-2**31, 2**31 - 1, *values)


def _s64(*values):
    return _within(-2**63, 2**63 - 1, *values)


def _unsigned(bits, *values):
    return _within(0, 2**bits - 1, *values)


def _bytes(data: BytesLike) -> bytes:
    """A copy, but for bytes, which never change."""
    return data if type(data) is bytes else bytes(memoryview(data))


def _exported(data: BytesLike) -> _Buffer:
    """The buffer of an object. One that is not contiguous is copied, since the library takes one run."""
    buffer = _Buffer()
    try:
        _get_buffer(data, buffer, 0)
    except BufferError:
        _get_buffer(bytes(memoryview(data)), buffer, 0)
    return buffer


class _Loans:
    """Bytes-like objects that are lent to the library. Until the `with` ends they are there, and their owner can neither resize nor close them."""

    def __init__(self):
        self._kept, self._buffers = [], []

    def lend(self, data: BytesLike) -> Tuple[int, int]:
        """Where the bytes start, and how many they are."""
        if type(data) is bytes:
            self._kept.append(data)
            return _bytes_start(data), len(data)
        buffer = _exported(data)
        self._buffers.append(buffer)
        # what is empty may have no address, and the library wants one
        return buffer.start or _bytes_start(b''), buffer.length

    def __enter__(self) -> '_Loans':
        return self

    def __exit__(self, *_):
        for buffer in self._buffers:
            _release_buffer(buffer)


def _output(room: int) -> bytes:
    """New bytes, for the library to write before anybody sees them. They are not cleared: that would take as long as to tally a sheet."""
    return _new_bytes(None, *_within(0, sys.maxsize, room))


def _judge(number):
    if number:
        raise Refused(number)


def _told(answer, record=None) -> int:
    if answer.number:
        raise Refused(answer.number, answer.offset, record)
    return answer.length


def _part(start: int, part) -> bytes:
    """A copy of a part of the bytes that start there."""
    return _new_bytes(start + part.start, part.length)


# ---- Keys, lots, spans


def key_join(x: int, y: int, z: int) -> int:
    """The key of a block's coordinates, each -2048..2047. Refused: 9."""
    joined = _library.anow_key_join(*_s32(x, y, z))
    _judge(joined.number)
    return joined.key


def key_split(key: int) -> Tuple[int, int, int]:
    """The block's coordinates x, y and z. Refused: 9."""
    split = _library.anow_key_split(*_s64(key))
    _judge(split.number)
    return split.x, split.y, split.z


class Lot(NamedTuple):
    """Node coordinates, both ends inside: the least on each axis, then the greatest. Lot.WORLD is the whole world.

    `(x, y, z) in lot` asks what `lot.has(x, y, z)` does, and is a TypeError where that is: for anything but three whole numbers."""
    x0: int
    y0: int
    z0: int
    x1: int
    y1: int
    z1: int

    def has(self, x: int, y: int, z: int) -> bool:
        """Whether a node stands in the lot. Refused: 10 for a lot out of the world or turned round."""
        asked = _library.anow_lot_has(self._c(), *_s32(x, y, z))
        _judge(asked.number)
        return asked.inside == 1

    def __contains__(self, node) -> bool:
        return self.has(*node)

    def _c(self):
        return _Lot(*_s32(*self))


Lot.WORLD = Lot(-32768, -32768, -32768, 32767, 32767, 32767)


class Span(NamedTuple):
    """Seconds: `start` is inside, `until` is not. Span.ALL_TIME has every second that is known; 0xffffffff, which stands for none, lies in no span.

    `second in span` asks what `span.has(second)` does, and is a TypeError where that is: for anything but a whole number."""
    start: int
    until: int

    def has(self, second: int) -> bool:
        """Whether a second lies in the span. Refused: 10 for a span turned round."""
        asked = _library.anow_span_has(self._c(), *_unsigned(32, second))
        _judge(asked.number)
        return asked.inside == 1

    def __contains__(self, second) -> bool:
        return self.has(second)

    def _c(self):
        return _Span(*_unsigned(32, *self))


Span.ALL_TIME = Span(0, 0xffffffff)


# ---- Blocks


# The forms of a metadata list: with its list version and its count before the rows, or a single 0 with no count, which a list of no rows may be
# from version 23 on.
LIST_COUNTED = 0
LIST_ZERO = 1


class Head(NamedTuple):
    """Lighting is 65,535 under version 27, the timer byte 0 except in 24, the list form LIST_COUNTED in version 22 and where there are metadata
    rows."""
    version: int
    flags: int
    lighting: int
    timestamp: int
    timer_byte: int
    list_form: int = LIST_COUNTED

    def _c(self):
        version, flags, timer_byte, list_form = _unsigned(8, self.version, self.flags, self.timer_byte, self.list_form)
        return _Head(version, flags, *_unsigned(16, self.lighting), *_unsigned(32, self.timestamp), timer_byte, list_form)


class Block(NamedTuple):
    """A block's head, and the rows of its four lists."""
    head: Head
    names: bytes
    metadata: bytes
    objects: bytes
    timers: bytes


class Nodes(NamedTuple):
    """The three numbers of each node, by its index 256*z + 16*y + x: param0 as native sixteen-bit numbers. To be written it may be any sequence of
    numbers, but not bytes."""
    param0: array
    param1: bytes
    param2: bytes


def _taken(start, block) -> Block:
    _told(block.answer)
    head = Head(*(getattr(block.head, field) for field in Head._fields))
    return Block(head, *(_part(start, getattr(block, name)) for name in Block._fields[1:]))


def read(block: BytesLike) -> Tuple[Block, Nodes]:
    """Refused: the block's numbers."""
    param0, param1, param2 = array('H', bytes(2 * NODES)), _output(NODES), _output(NODES)
    with _Loans() as loans:
        start, length = loans.lend(block)
        found = _library.anow_read(start, length, param0.buffer_info()[0], NODES, param1, NODES, param2, NODES)
        return _taken(start, found), Nodes(param0, param1, param2)


def sections(block: BytesLike) -> Block:
    """The same without the nodes. Refused: the block's numbers."""
    with _Loans() as loans:
        start, length = loans.lend(block)
        return _taken(start, _library.anow_sections(start, length))


def node_name(block: BytesLike, index: int) -> bytes:
    """The name of the node at an index, 256*z + 16*y + x. Refused: the block's numbers, then 16 for an index above 4,095."""
    with _Loans() as loans:
        start, length = loans.lend(block)
        node = _library.anow_node_name(start, length, *_unsigned(64, index))
        _told(node.answer)
        return _part(start, node.name)


def light_count(lighting: int) -> int:
    """How many of the low twelve lighting bits are zero."""
    return _library.anow_light_count(*_unsigned(16, lighting))


def _sixteen_bits(numbers) -> array:
    """The numbers in an array, which would take bytes in the machine's byte order, in silence."""
    if isinstance(numbers, (bytes, bytearray)):
        raise TypeError('param0 is a sequence of numbers and not bytes, which could be of either byte order')
    return array('H', numbers)


def write(block: Block, nodes: Nodes, room: Optional[int] = None) -> bytes:
    """The block that these parts make; counts are worked out from the rows. TypeError for a param0 that is bytes.
    Refused: 2; 12 where the parts do not fit, also for LIST_ZERO in version 22 or with metadata rows, and for a list form that is neither; what the
    reader would say of the bytes (4, 5, 6, 8, 34 or 35); 11."""
    param0 = _sixteen_bits(nodes.param0)
    with _Loans() as loans:
        start, length = loans.lend(param0)
        lists = [loans.lend(data) for data in (nodes.param1, nodes.param2, *block[1:])]
        if room is None:
            # four bytes for each node, the rows, and beside them 22 bytes at most
            room = 5 * NODES + sum(length for _, length in lists[2:])
        out = _output(room)
        arguments = [argument for lent in lists for argument in lent]
        written = _told(_library.anow_write(block.head._c(), start, length // 2, *arguments, out, len(out)))
    return out[:written]


# ---- Rows of a section, from the front


class NameRow(NamedTuple):
    """A content id and its name."""
    id: int
    name: bytes


class MetadataRow(NamedTuple):
    """What a node has beside its params. Type and content are version 22's; the number of variables, their rows and the inventory stand from 23 on.
    The others are 0 or empty."""
    position: int
    kind: int
    content: bytes
    variables: int
    variable_rows: bytes
    inventory: bytes


class ObjectRow(NamedTuple):
    """A static object."""
    kind: int
    x: int
    y: int
    z: int
    data: bytes


class TimerRow(NamedTuple):
    """A node's timer."""
    position: int
    timeout: int
    elapsed: int


def _row(kind, start, row):
    """The row in Python's types, and its length."""
    length = _told(row.answer)
    values = (getattr(row, field) for field in kind._fields)
    return kind(*(_part(start, value) if isinstance(value, _Part) else value for value in values)), length


def _front(kind, part, ask):
    with _Loans() as loans:
        start, length = loans.lend(part)
        row, behind = _row(kind, start, ask(start, length))
        return row, _new_bytes(start + behind, length - behind)


def _each(kind, section, ask):
    """The section is the library's from now on, until its rows end or are dropped."""
    return _rows(kind, memoryview(section), ask)


def _rows(kind, section, ask):
    """Each row is asked of what remains, which is not copied: the address moves on."""
    with section, _Loans() as loans:
        at, left = loans.lend(section)
        while left:
            row, length = _row(kind, at, ask(at, left))
            yield row
            at, left = at + length, left - length


def _ask_metadata(version):
    version, = _unsigned(8, version)
    return lambda start, length: _library.anow_row_metadata(version, start, length)


def name_row(part: BytesLike) -> Tuple[NameRow, bytes]:
    """The front row of a part, and what remains behind it. Refused: 16 for an empty part, then 1."""
    return _front(NameRow, part, _library.anow_row_name)


def metadata_row(version: int, part: BytesLike) -> Tuple[MetadataRow, bytes]:
    """Refused: 2, 16, then 1, 4 or 34."""
    return _front(MetadataRow, part, _ask_metadata(version))


def object_row(part: BytesLike) -> Tuple[ObjectRow, bytes]:
    """Refused: 16, then 1."""
    return _front(ObjectRow, part, _library.anow_row_object)


def timer_row(part: BytesLike) -> Tuple[TimerRow, bytes]:
    """Refused: 16, then 1 or 4."""
    return _front(TimerRow, part, _library.anow_row_timer)


def name_rows(section: BytesLike) -> Iterator[NameRow]:
    """Every row of a section, which cannot be resized or closed until they end or are dropped. A refused row ends them, with an offset from its own
    first byte. Refused: 1."""
    return _each(NameRow, section, _library.anow_row_name)


def metadata_rows(version: int, section: BytesLike) -> Iterator[MetadataRow]:
    """Refused: 2, then 1, 4 or 34."""
    return _each(MetadataRow, section, _ask_metadata(version))


def object_rows(section: BytesLike) -> Iterator[ObjectRow]:
    """Refused: 1."""
    return _each(ObjectRow, section, _library.anow_row_object)


def timer_rows(section: BytesLike) -> Iterator[TimerRow]:
    """Refused: 1 or 4."""
    return _each(TimerRow, section, _library.anow_row_timer)


# ---- Tallies


class Row(NamedTuple):
    """How many nodes bear a name."""
    name: bytes
    count: int


class Tally:
    """A well-formed tally: its bytes, and its rows in the order of their names. Refused: 13 for bytes that are no tally.

    `name in tally`, `tally[name]` and `tally.get(name)` ask for the row of a name. A name is bytes-like; a str is in no tally, and is a TypeError as it
    is for `in` of bytes."""

    def __init__(self, data: BytesLike):
        self._data = _bytes(data)
        _told(_library.anow_tally_check(self._data, len(self._data)))

    @property
    def bytes(self) -> bytes:
        return self._data

    def __iter__(self) -> Iterator[Row]:
        at = 9
        while at < len(self._data):
            name = at + 2
            count = name + int.from_bytes(self._data[at:name], 'big')
            at = count + 8
            yield Row(self._data[name:count], int.from_bytes(self._data[count:at], 'big'))

    def __len__(self) -> int:
        return int.from_bytes(self._data[5:9], 'big')

    @functools.cached_property
    def _counts(self):
        """The counts by name, made for the first question: rows are not of one length, and cannot be searched as they stand."""
        return dict(iter(self))

    def __contains__(self, name: BytesLike) -> bool:
        return _bytes(name) in self._counts

    def __getitem__(self, name: BytesLike) -> int:
        """The count of a name. KeyError for a name that has no row."""
        return self._counts[_bytes(name)]

    def get(self, name: BytesLike, default: int = 0) -> int:
        """The count of a name, or the default for a name that has no row."""
        return self._counts.get(_bytes(name), default)

    def __eq__(self, other) -> bool:
        return self._data == other._data if isinstance(other, Tally) else NotImplemented

    def __hash__(self) -> int:
        return hash(self._data)

    def __repr__(self) -> str:
        return f'Tally({self._data!r})'

    def __reduce__(self):
        """For pickle and copy: the bytes alone, which are checked again."""
        return type(self), (self._data,)

    def add(self, name: BytesLike, count: int, room: Optional[int] = None) -> 'Tally':
        """The tally with a count added to a name. Refused: 12 for a name above 65,535 bytes; 14; 11."""
        name, used = _bytes(name), len(self._data)
        if room is None:
            # at most one row is new: its length, the name and the count
            room = used + 2 + len(name) + 8
        out = _output(max(room, used))
        ctypes.memmove(out, self._data, used)
        length = _told(_library.anow_tally_add(out, len(out), used, name, len(name), *_unsigned(64, count)))
        if length > room:
            raise Refused(Refusal.NO_ROOM)
        return _written(out, length)

    def merge(self, other: 'Tally', room: Optional[int] = None) -> 'Tally':
        """The sum of two tallies. Refused: 14; 11."""
        a, b = self._data, other._data
        if room is None:
            # each row of the sum is a row of one of them, with another count
            room = len(a) + len(b)
        out = _output(room)
        return _written(out, _told(_library.anow_tally_merge(a, len(a), b, len(b), out, len(out))))


def _written(out, length) -> Tally:
    """What the library wrote is a tally, and need not be checked again."""
    tally = Tally.__new__(Tally)
    tally._data = out[:length]
    return tally


Tally.EMPTY = Tally(b'TLY\0\1\0\0\0\0')


def _enough(length: int) -> int:
    """Room for the tally of any block or sheet of a length: five quarters of it.

    A name row of a block is four bytes and the name, a row of a tally ten bytes and the name. So the tally of k names, of n bytes together, has
    9 + 10k + n bytes; and its block at least F + 4k + n, where F is what the shortest block has beside its name row. Five quarters of that are enough
    where 9 + 5k is at most five quarters of F. Up to version 23 F is 12,304, and there are 128 + 2,048 ids: 10,889 is below 15,380. From 24 on F is
    16,400, and 4,096 nodes have at most as many names: 20,489 is below 20,500. A sheet has nine bytes beside its records, as a tally beside its rows, and
    every row of its tally is in the tally of a block."""
    return 5 * length // 4


def tally_block(key: int, block: BytesLike, lot: Lot = Lot.WORLD, span: Span = Span.ALL_TIME, room: Optional[int] = None) -> Tally:
    """The nodes of the block at a key that stand in a lot, if the block was saved within a span. Refused: 10; 9; the block's
    numbers; 11."""
    with _Loans() as loans:
        start, length = loans.lend(block)
        room = _enough(length) if room is None else room
        out = _output(room)
        return _written(out, _told(_library.anow_tally_block(*_s64(key), start, length, lot._c(), span._c(), out, len(out))))


def tally_sheet(sheet: BytesLike, lot: Lot = Lot.WORLD, span: Span = Span.ALL_TIME, room: Optional[int] = None) -> Tally:
    """The same of a sheet. Without a room two and a half times the sheet's length of memory is reserved, but only what the tally needs is touched.
    Refused: 10; 15; by record 15, 9, 15 and the block's numbers; 11; 14."""
    with _Loans() as loans:
        start, length = loans.lend(sheet)
        room = _enough(length) if room is None else room
        out, spare = _output(room), _output(room)
        answer = _library.anow_tally_sheet(start, length, lot._c(), span._c(), out, len(out), spare, len(spare))
        return _written(out, _told(answer, answer.record))


# ---- Rate sheets, and prices


class Rate(NamedTuple):
    """What a node of a name costs, in thousandths, in a block saved at the second `start` or later, up to the name's next rate."""
    name: bytes
    start: int
    price: int


class Bill(NamedTuple):
    """What nodes cost, in thousandths, and how many of them have no price."""
    total: int
    unpriced: int


def rate_sheet(rates: Iterable[Rate]) -> bytes:
    """The rate sheet that has these rates, which may come in any order, and as plain tuples. ValueError for a name above 65,535 bytes, and for two
    rates of a name from one second on; OverflowError for a second or a price that a u32 does not hold, and for more than 2^32-1 rates."""
    rows = sorted((_bytes(name), *_unsigned(32, start, price)) for name, start, price in rates)
    for (name, start, _), (next_name, next_start, _) in zip(rows, rows[1:]):
        if (name, start) == (next_name, next_start):
            raise ValueError(f'two rates of {name!r} from second {start} on')
    count, = _unsigned(32, len(rows))
    return b''.join([b'RTE\0\1', count.to_bytes(4, 'big'), *(_rate_bytes(*row) for row in rows)])


def _rate_bytes(name: bytes, start: int, price: int) -> bytes:
    if len(name) > 65535:
        raise ValueError(f'a name of {len(name)} bytes, more than 65535')
    return len(name).to_bytes(2, 'big') + name + start.to_bytes(4, 'big') + price.to_bytes(4, 'big')


def check_rates(rates: BytesLike) -> None:
    """Refused: 40 for bytes that are no rate sheet."""
    with _Loans() as loans:
        _told(_library.anow_rates_check(*loans.lend(rates)))


def rate_rows(rates: BytesLike) -> Iterator[Rate]:
    """The rates of a rate sheet, by name and then by second. Refused: 40."""
    data = _bytes(rates)
    check_rates(data)
    return _rates(data)


def _rates(data: bytes) -> Iterator[Rate]:
    at = 9
    while at < len(data):
        name = at + 2
        start = name + int.from_bytes(data[at:name], 'big')
        price, at = start + 4, start + 8
        yield Rate(data[name:start], int.from_bytes(data[start:price], 'big'), int.from_bytes(data[price:at], 'big'))


def price_block(key: int, block: BytesLike, rates: BytesLike, lot: Lot = Lot.WORLD, span: Span = Span.ALL_TIME) -> Bill:
    """What the nodes of the block at a key that stand in a lot cost, if the block was saved within a span: each the price of the rate of its name with
    the greatest start not above the block's timestamp; a node with no such rate is unpriced. Refused: 10; 40; 9; the
    block's numbers."""
    with _Loans() as loans:
        bill = _library.anow_price_block(*_s64(key), *loans.lend(block), *loans.lend(rates), lot._c(), span._c())
    _told(bill.answer)
    return Bill(bill.total, bill.unpriced)


def price_sheet(sheet: BytesLike, rates: BytesLike, lot: Lot = Lot.WORLD, span: Span = Span.ALL_TIME) -> Bill:
    """The same of a sheet. Refused: 10; 40; 15; by record 15, 9, 15 and the block's numbers; 14 for a total above 2^64-1."""
    with _Loans() as loans:
        bill = _library.anow_price_sheet(*loans.lend(sheet), *loans.lend(rates), lot._c(), span._c())
    _told(bill.answer, bill.answer.record)
    return Bill(bill.total, bill.unpriced)
