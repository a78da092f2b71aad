"""The calls of libmvtgate by ctypes, where the extension isn't there: `Library` is that of `_native.pyi`, and the memory that a call
reads and writes."""
from __future__ import annotations

import ctypes
from types import TracebackType
from typing import TYPE_CHECKING, Callable, List, Optional, Tuple, Type, Union

from ._statuses import MENDED, NO, NO_MEMORY, NO_ROOM, NOT_A_FAULT, NOT_JSON, OK, OUT_OF_RANGE

if TYPE_CHECKING:
    from _typeshed import ReadableBuffer

# MVTGATE_TEXT_ROOM of mvtgate.h: no fault's text has more bytes
TEXT_ROOM = 384
# for the lines of some hundred faults; a longer list has a room of its own
_LIST_ROOM = 65_536
# what a mended tile may have beyond the bytes of the one that was refused; a longer one has a room of its own
_MORE_BYTES = 4_096


def _functions_of(name: str) -> ctypes.CDLL:
    """The library's functions with their types. OSError where it can't be loaded, AttributeError where it has no such function."""
    # CDLL lets the interpreter's lock go while the library works. PyDLL wouldn't.
    library = ctypes.CDLL(name)
    # A c_void_p takes an address or a bytes object, of which it passes the address of its bytes: never null, even of b"".
    address, size = ctypes.c_void_p, ctypes.c_size_t
    judging = [ctypes.c_uint32, address, size, address, size, address]
    arguments = {
        "mvtgate_check": judging,
        "mvtgate_check_quickly": judging,
        "mvtgate_faults": judging,
        "mvtgate_faults_quickly": judging,
        "mvtgate_mend": [ctypes.c_uint32, ctypes.c_uint32, address, size, address, size, address, address, size, address],
        "mvtgate_confirm": [ctypes.c_uint32, address, size, address, size],
        "mvtgate_dump": [address, size, address, size, address],
        "mvtgate_advise": [address, size, address, size, address],
        "mvtgate_version": [],
    }
    for call, types in arguments.items():
        try:
            function = getattr(library, call)
        except AttributeError:
            raise AttributeError(call) from None
        function.argtypes = types
        function.restype = ctypes.c_int
    library.mvtgate_version.restype = ctypes.c_uint32
    return library


class _PyBuffer(ctypes.Structure):
    """Py_buffer of CPython, the same in each version since 3.3, and part of its stable interface."""

    _fields_ = [
        ("buf", ctypes.c_void_p),
        ("obj", ctypes.c_void_p),
        ("len", ctypes.c_ssize_t),
        ("itemsize", ctypes.c_ssize_t),
        ("readonly", ctypes.c_int),
        ("ndim", ctypes.c_int),
        ("format", ctypes.c_void_p),
        ("shape", ctypes.c_void_p),
        ("strides", ctypes.c_void_p),
        ("suboffsets", ctypes.c_void_p),
        ("internal", ctypes.c_void_p),
    ]


# (prototypes of our own: argument types set on ctypes.pythonapi would be those of every other user of it. PYFUNCTYPE keeps the
# interpreter's lock, and raises what the call has raised.)
_SIMPLE = 0  # PyBUF_SIMPLE: contiguous bytes, which may be read-only
_get_buffer = ctypes.PYFUNCTYPE(ctypes.c_int, ctypes.py_object, ctypes.c_void_p, ctypes.c_int)(
    ("PyObject_GetBuffer", ctypes.pythonapi)
)
_release_buffer = ctypes.PYFUNCTYPE(None, ctypes.c_void_p)(("PyBuffer_Release", ctypes.pythonapi))

Address = Union[int, bytes]


class Borrowed:
    """The bytes of an object, without a copy: `with Borrowed(it) as (address, length)`.

    A bytes object is passed as it is. Of every other object the interpreter's own call for readers of memory,
    PyObject_GetBuffer, is asked for contiguous bytes that needn't be writable; ctypes' from_buffer takes no read-only ones. It
    is safe, since that call holds a reference to the object and pins its memory until PyBuffer_Release: meanwhile a bytearray
    refuses to change its size (BufferError), a mmap to be closed, a memoryview to be released. What is not kept from happening
    is that another thread or process writes to the bytes; that is for the caller to see to.

    Raises TypeError for an object without contiguous bytes.
    """

    __slots__ = ("_it", "_buffer")

    def __init__(self, it: ReadableBuffer) -> None:
        self._it = it
        self._buffer: Optional[_PyBuffer] = None

    def __enter__(self) -> Tuple[Address, int]:
        it = self._it
        if isinstance(it, bytes):
            return it, len(it)
        buffer = _PyBuffer()
        try:
            _get_buffer(it, ctypes.addressof(buffer), _SIMPLE)
        except TypeError:
            kind = type(it).__name__
            raise TypeError(f"a tile is bytes, or an object with bytes such as bytearray, memoryview or mmap, not {kind}") from None
        except BufferError as error:
            raise TypeError(f"the bytes of this {type(it).__name__} aren't contiguous: {error}; hand over bytes(..) of it") from error
        self._buffer = buffer
        # (no bytes may have the address null, which the library is never given)
        return (buffer.buf, buffer.len) if buffer.len else (b"", 0)

    def __exit__(self, kind: Optional[Type[BaseException]], error: Optional[BaseException], trace: Optional[TracebackType]) -> None:
        if self._buffer is not None:
            _release_buffer(ctypes.addressof(self._buffer))
            self._buffer = None


class _Room:
    """What a call writes to: bytes, mostly those of a text, and their length."""

    __slots__ = ("_text", "_length", "size", "words")

    def __init__(self, size: int) -> None:
        self._text = ctypes.create_string_buffer(size)
        self._length = ctypes.c_size_t()
        self.size = size
        self.words = (ctypes.addressof(self._text), size, ctypes.addressof(self._length))

    @property
    def length(self) -> int:
        return self._length.value

    def text(self) -> str:
        return str(memoryview(self._text)[: self.length], "utf-8")

    def bytes(self) -> bytes:
        return bytes(memoryview(self._text)[: self.length])


class _Rooms:
    """Rooms of one size that no call uses.

    A call takes one, or makes one, and puts it back: so each has a room of its own, in whichever thread, and one in a signal's
    handler too. (A list's pop and append are atomic.) There are never more than calls at one time.
    """

    __slots__ = ("_size", "unused")

    def __init__(self, size: int) -> None:
        self._size = size
        self.unused: List[_Room] = []

    def take(self) -> _Room:
        try:
            return self.unused.pop()
        except IndexError:
            return _Room(self._size)

    def put_back(self, room: _Room) -> None:
        """Keeps a room, unless it was made for one call's longer text."""
        if room.size == self._size:
            self.unused.append(room)


def _expect(status: int, *expected: int) -> None:
    if status == NO_MEMORY:
        raise MemoryError("mvtgate: out of memory")
    if status not in expected:
        raise RuntimeError(f"mvtgate: the library returned the status {status}, which this package doesn't know")


class Library:
    """A loaded libmvtgate, as `_native.pyi` has it."""

    def __init__(self, name: str, /) -> None:
        self._calls = _functions_of(name)
        self._rooms = _Rooms(TEXT_ROOM)
        self._rooms_for_lists = _Rooms(_LIST_ROOM)

    def check(self, profile: int, tile: ReadableBuffer, is_quick: bool, /) -> Optional[str]:
        call = self._calls.mvtgate_check_quickly if is_quick else self._calls.mvtgate_check
        status, text = self._told(self._rooms, tile, call, profile)
        return None if status == OK else text

    def faults(self, profile: int, tile: ReadableBuffer, is_quick: bool, /) -> str:
        call = self._calls.mvtgate_faults_quickly if is_quick else self._calls.mvtgate_faults
        _, text = self._told(self._rooms_for_lists, tile, call, profile)
        return text

    def dump(self, tile: ReadableBuffer, /) -> Tuple[bool, str]:
        status, text = self._told(self._rooms_for_lists, tile, self._calls.mvtgate_dump)
        return status == OK, text

    def advise(self, tile: ReadableBuffer, /) -> Tuple[bool, str]:
        status, text = self._told(self._rooms_for_lists, tile, self._calls.mvtgate_advise)
        return status == OK, text

    def _told(self, rooms: _Rooms, tile: ReadableBuffer, call: Callable[..., int], *before: int) -> Tuple[int, str]:
        """Status and text of a call that writes one, in a larger room where it wants one. The text is empty without one."""
        with Borrowed(tile) as (address, length):
            room = rooms.take()
            status = call(*before, address, length, *room.words)
            while status == NO_ROOM and room.length > room.size:
                room = _Room(room.length)
                status = call(*before, address, length, *room.words)
        text = room.text() if status in (OK, NO) and room.length else ""
        rooms.put_back(room)
        _expect(status, OK, NO)
        return status, text

    def mend(self, profile: int, tile: ReadableBuffer, is_dropping: bool, /) -> Tuple[int, bytes, str]:
        call = self._calls.mvtgate_mend
        with Borrowed(tile) as (address, length):
            out, report = _Room(length + _MORE_BYTES), self._rooms_for_lists.take()
            status = call(profile, is_dropping, address, length, *out.words, *report.words)
            while status == NO_ROOM and (out.length > out.size or report.length > report.size):
                out, report = _Room(out.length), _Room(report.length)
                status = call(profile, is_dropping, address, length, *out.words, *report.words)
        mended = out.bytes() if status == MENDED else b""
        text = report.text() if status in (NO, MENDED) else ""
        self._rooms_for_lists.put_back(report)
        _expect(status, OK, NO, MENDED)
        return status, mended, text

    def confirm(self, profile: int, tile: ReadableBuffer, text: bytes, /) -> int:
        with Borrowed(tile) as (address, length):
            status: int = self._calls.mvtgate_confirm(profile, address, length, text, len(text))
        _expect(status, OK, NO, NOT_JSON, NOT_A_FAULT, OUT_OF_RANGE)
        return status

    def head(self, tile: ReadableBuffer, most: int, /) -> bytes:
        with Borrowed(tile) as (address, length):
            return ctypes.string_at(address, min(length, most))

    def version(self) -> int:
        number: int = self._calls.mvtgate_version()
        return number
