"""Reads BER, CER and DER (ITU-T X.690), accepted exactly as the rules say.

Headers, lengths and contents octets are read by a library in C whose functions are proved to meet
their contracts (docs/C.md). This module calls it through ctypes and is not proved itself.

    >>> import bcder
    >>> data = bytes.fromhex("30060201050101ff")
    >>> bcder.check(data)
    Checked(values=3, depth=2)
    >>> [value] = bcder.values(data)
    >>> number, truth = value.children
    >>> number.int(), truth.bool()
    (5, True)

Octets may be `bytes`, a `bytearray`, a `memoryview`, or whatever has a contiguous buffer. They are
not copied, and must not change while values of them are in use.
"""

from __future__ import annotations

import builtins
import ctypes
import enum
import os
from typing import Iterator, NamedTuple, Optional, Tuple, Union

__all__ = [
    "BER", "CER", "DER", "Checked", "Class", "Error", "Kind", "Rules", "Tag", "Value",
    "check", "convert", "values",
]


class Rules(enum.IntEnum):
    """A set of encoding rules of X.690."""

    BER = 0
    CER = 1
    DER = 2


BER, CER, DER = Rules.BER, Rules.CER, Rules.DER


class Class(enum.IntEnum):
    """The class of a tag (X.690, 8.1.2.2)."""

    UNIVERSAL = 0
    APPLICATION = 1
    CONTEXT = 2
    PRIVATE = 3


class Tag(NamedTuple):
    """The tag of a value: its class and its number."""

    cls: Class
    number: int

    def __str__(self) -> str:
        if self.cls is Class.UNIVERSAL:
            return _NAMES.get(self.number, f"[UNIVERSAL {self.number}]")
        if self.cls is Class.CONTEXT:
            return f"[{self.number}]"
        return f"[{self.cls.name} {self.number}]"


_NAMES = {
    1: "BOOLEAN", 2: "INTEGER", 3: "BIT STRING", 4: "OCTET STRING", 5: "NULL",
    6: "OBJECT IDENTIFIER", 12: "UTF8String", 16: "SEQUENCE", 17: "SET", 18: "NumericString",
    19: "PrintableString", 22: "IA5String",
}


class Checked(NamedTuple):
    """How many values octets encode, with those inside others, and how many are one inside the
    other at most."""

    values: int
    depth: int


class Kind(enum.IntEnum):
    """Why octets are refused."""

    NO_MEMORY = 2
    ABSENT = 3
    BEYOND = 4
    ENDED = 5
    TOO_DEEP = 6
    CONTENTS = 7
    OTHER_TAG = 8
    NOT_CONVERTED = 10


_TEXTS = {
    Kind.NO_MEMORY: "out of memory",
    Kind.ABSENT: "no header or end of a value that the rules allow",
    Kind.BEYOND: "a value with more contents octets than there are",
    Kind.ENDED: "the octets end inside a value",
    Kind.TOO_DEEP: "a value inside more others than are allowed",
    Kind.CONTENTS: "contents octets that the type does not allow",
    Kind.OTHER_TAG: "a value of another type",
    Kind.NOT_CONVERTED: "a value that is not converted to these rules",
}


class Error(ValueError):
    """Octets were refused: `kind` says why, and `offset` at which octet."""

    kind: Kind
    offset: int

    def __init__(self, kind: Kind, offset: int, text: str = "") -> None:
        super().__init__(f"octet {offset}: {text or _TEXTS[kind]}")
        self.kind = kind
        self.offset = offset


Octets = Union[bytes, bytearray, memoryview]

# a pointer and a number of octets
_Pointed = Tuple[Optional[int], int]


# ---- the library in C

class _Heading(ctypes.Structure):
    _fields_ = [
        ("size", ctypes.c_size_t), ("len", ctypes.c_size_t), ("number", ctypes.c_uint32),
        ("cls", ctypes.c_uint8), ("constructed", ctypes.c_bool), ("indefinite", ctypes.c_bool),
    ]


class _Passed(ctypes.Structure):
    _fields_ = [
        ("at", ctypes.c_size_t), ("values", ctypes.c_size_t), ("depth", ctypes.c_size_t),
    ]


def _library() -> ctypes.CDLL:
    """Loads the library: BCDER_LIBRARY's file, or the one beside this module, or the system's."""
    here = os.path.join(os.path.dirname(os.path.abspath(__file__)), "libbcder.so")
    named = os.environ.get("BCDER_LIBRARY")
    return ctypes.CDLL(named or (here if os.path.exists(here) else "libbcder.so.0"))


_C = _library()
_SPAN = (ctypes.c_void_p, ctypes.c_size_t)


def _call(name: str, *arguments):
    function = getattr(_C, name)
    function.restype = ctypes.c_uint8
    function.argtypes = arguments
    return function


_heading = _call("bcder_heading", ctypes.c_uint8, *_SPAN, ctypes.POINTER(_Heading))
_end = _call("bcder_end", ctypes.c_uint8, *_SPAN, ctypes.POINTER(ctypes.c_size_t))
_value = _call("bcder_value", ctypes.c_uint8, *_SPAN, ctypes.POINTER(_Passed))
_check = _call("bcder_check", ctypes.c_uint8, *_SPAN, ctypes.POINTER(_Passed))
_check_within = _call(
    "bcder_check_within", ctypes.c_uint8, *_SPAN, ctypes.c_size_t, ctypes.POINTER(_Passed)
)
_convert = _call(
    "bcder_convert", ctypes.c_uint8, ctypes.c_uint8, *_SPAN, *_SPAN,
    ctypes.POINTER(ctypes.c_size_t),
)
_bool = _call("bcder_bool", ctypes.c_uint8, *_SPAN, ctypes.POINTER(ctypes.c_bool))
_null = _call("bcder_null", *_SPAN)
_integer = _call("bcder_integer", *_SPAN, ctypes.POINTER(ctypes.c_bool))
_magnitude = _call("bcder_magnitude", *_SPAN, *_SPAN, ctypes.POINTER(ctypes.c_size_t))
_bits = _call("bcder_bits", ctypes.c_uint8, *_SPAN, ctypes.POINTER(ctypes.c_uint8))
_oid = _call("bcder_oid", *_SPAN)
_oid_text = _call("bcder_oid_text", *_SPAN, *_SPAN, ctypes.POINTER(ctypes.c_size_t))
_string = _call(
    "bcder_string", ctypes.c_uint8, ctypes.c_bool, *_SPAN, *_SPAN, ctypes.POINTER(ctypes.c_size_t)
)
_SETS = {
    12: _call("bcder_utf8", *_SPAN),
    18: _call("bcder_numeric", *_SPAN),
    19: _call("bcder_printable", *_SPAN),
    22: _call("bcder_ia5", *_SPAN),
}


class _Buffer(ctypes.Structure):
    """CPython's `Py_buffer`."""

    _fields_ = [
        ("buf", ctypes.c_void_p), ("obj", ctypes.py_object), ("len", ctypes.c_ssize_t),
        ("itemsize", ctypes.c_ssize_t), ("readonly", ctypes.c_int), ("ndim", ctypes.c_int),
        ("format", ctypes.c_char_p), ("shape", ctypes.c_void_p), ("strides", ctypes.c_void_p),
        ("suboffsets", ctypes.c_void_p), ("internal", ctypes.c_void_p),
    ]


_get_buffer = ctypes.pythonapi.PyObject_GetBuffer
_get_buffer.restype = ctypes.c_int
_get_buffer.argtypes = [ctypes.py_object, ctypes.POINTER(_Buffer), ctypes.c_int]
_release_buffer = ctypes.pythonapi.PyBuffer_Release
_release_buffer.restype = None
_release_buffer.argtypes = [ctypes.POINTER(_Buffer)]


class _Span:
    """Octets, held where they are."""

    __slots__ = ("view", "size", "_buffer", "_address")

    def __init__(self, data: Octets) -> None:
        self.view = memoryview(data).cast("B")
        self.size = len(self.view)
        self._buffer = _Buffer()
        _get_buffer(self.view, ctypes.byref(self._buffer), 0)
        self._address = self._buffer.buf or 0

    def __del__(self) -> None:
        if getattr(self, "_address", None) is not None:
            _release_buffer(ctypes.byref(self._buffer))

    def part(self, start: int, stop: int) -> _Pointed:
        """Returns what the library gets for these octets."""
        return (self._address + start if stop > start else None, stop - start)


# ---- reading

def check(data: Octets, rules: Rules = DER, *, levels: Optional[int] = None) -> Checked:
    """Checks that all octets are encodings of values, one after the other.

    With `levels`, none may be inside that many others or more. Contents octets are not looked at.

    Raises `Error` if they are not, with the octet at which that was seen.
    """
    span, passed = _Span(data), _Passed()
    pointer, size = span.part(0, span.size)
    if levels is None:
        status = _check(rules, pointer, size, ctypes.byref(passed))
    else:
        status = _check_within(rules, pointer, size, levels, ctypes.byref(passed))
    if status:
        raise _error(status, passed.at)
    return Checked(passed.values, passed.depth)


def convert(data: Octets, source: Rules, target: Rules = DER) -> bytes:
    """Returns the values that octets encode in the rules `source`, in the rules `target`.

    What is not converted, and what is not looked at, is the same as of `bcder_convert`
    (include/bcder.h). Raises `Error`, always with the offset 0.
    """
    span, size = _Span(data), ctypes.c_size_t()
    whole = span.part(0, span.size)
    status = _convert(source, target, *whole, None, 0, ctypes.byref(size))
    if status == 9:
        octets = ctypes.create_string_buffer(size.value)
        stored = (ctypes.addressof(octets), size.value, ctypes.byref(size))
        status = _convert(source, target, *whole, *stored)
        if not status:
            return octets.raw
    if status:
        raise _error(status, 0)
    return b""


def values(data: Octets, rules: Rules = DER) -> Iterator[Value]:
    """Returns the values that octets encode, one after the other.

    Each is checked when its turn comes, with all values inside it. Raises `Error` at octets that
    are no value.
    """
    span = _Span(data)
    return _values(span, Rules(rules), 0, span.size)


def _error(status: int, offset: int) -> Exception:
    if status == 1:
        return ValueError("no set of rules has this number")
    return Error(Kind(status), offset)


def _values(span: _Span, rules: Rules, start: int, stop: int) -> Iterator[Value]:
    while start < stop:
        passed = _Passed()
        status = _value(rules, *span.part(start, stop), ctypes.byref(passed))
        if status:
            raise _error(status, start + passed.at)
        yield Value(span, rules, start, start + passed.at)
        start += passed.at


class Value:
    """A value: octets that are its encoding, in rules."""

    __slots__ = ("tag", "constructed", "rules", "offset", "_span", "_start", "_stop", "_end")

    tag: Tag
    #: whether it is constructed of other values
    constructed: builtins.bool
    rules: Rules
    #: the octet at which it begins
    offset: builtins.int

    def __init__(self, span: _Span, rules: Rules, start: builtins.int, end: builtins.int) -> None:
        heading = _Heading()
        status = _heading(rules, *span.part(start, end), ctypes.byref(heading))
        if status:
            raise _error(status, start)
        self.tag = Tag(Class(heading.cls), heading.number)
        self.constructed = heading.constructed
        self.rules, self.offset = rules, start
        self._span, self._start, self._end = span, start + heading.size, end
        self._stop = None if heading.indefinite else self._start + heading.len

    def __repr__(self) -> str:
        form = "constructed" if self.constructed else "primitive"
        return f"<Value {self.tag} {form} at octet {self.offset}>"

    @property
    def encoding(self) -> memoryview:
        """All of its octets."""
        return self._span.view[self.offset:self._end]

    @property
    def contents(self) -> memoryview:
        """Its contents octets, without end-of-contents octets."""
        return self._span.view[self._start:self._contents_end()]

    def _contents_end(self) -> builtins.int:
        if self._stop is None:
            at, size, passed = self._start, ctypes.c_size_t(), _Passed()
            while _end(self.rules, *self._span.part(at, self._end), ctypes.byref(size)):
                status = _value(self.rules, *self._span.part(at, self._end), ctypes.byref(passed))
                if status:
                    raise _error(status, at + passed.at)
                at += passed.at
            self._stop = at
        return self._stop

    @property
    def children(self) -> Iterator[Value]:
        """The values that it is constructed of; none if it is primitive."""
        if not self.constructed:
            return iter(())
        return _values(self._span, self.rules, self._start, self._contents_end())

    def __iter__(self) -> Iterator[Value]:
        return self.children

    def _primitive(self, number: builtins.int) -> _Pointed:
        self._is_of(number)
        if self.constructed:
            raise Error(Kind.CONTENTS, self.offset, "a constructed value of a primitive type")
        return self._span.part(self._start, self._end)

    def _is_of(self, number: builtins.int) -> None:
        """A value with a tag of another class may have any type: its tag can be implicit."""
        if self.tag.cls is Class.UNIVERSAL and self.tag.number != number:
            raise Error(Kind.OTHER_TAG, self.offset, f"{self.tag}, not {_NAMES[number]}")

    def _refused(self) -> Error:
        return Error(Kind.CONTENTS, self._start)

    def bool(self) -> builtins.bool:
        """Returns a BOOLEAN (8.2, 11.1)."""
        truth = ctypes.c_bool()
        if _bool(self.rules, *self._primitive(1), ctypes.byref(truth)):
            raise self._refused()
        return truth.value

    def int(self) -> builtins.int:
        """Returns an INTEGER of any size (8.3)."""
        span, negative, size = self._primitive(2), ctypes.c_bool(), ctypes.c_size_t()
        octets = ctypes.create_string_buffer(span[1] or 1)
        stored = (ctypes.addressof(octets), span[1], ctypes.byref(size))
        if _integer(*span, ctypes.byref(negative)) or _magnitude(*span, *stored):
            raise self._refused()
        magnitude = int.from_bytes(octets.raw[:size.value], "big")
        return -magnitude if negative.value else magnitude

    def null(self) -> None:
        """Checks that it is a NULL (8.8)."""
        if _null(*self._primitive(5)):
            raise self._refused()

    def oid(self) -> str:
        """Returns an OBJECT IDENTIFIER as its components, joined by dots (8.19). Each is below
        2^128."""
        span, size = self._primitive(6), ctypes.c_size_t()
        if _oid_text(*span, None, 0, ctypes.byref(size)) != 9:
            raise self._refused()
        text = ctypes.create_string_buffer(size.value)
        _oid_text(*span, ctypes.addressof(text), size.value, ctypes.byref(size))
        return text.raw.decode()

    def bits(self) -> Tuple[bytes, builtins.int]:
        """Returns the octets of a BIT STRING in one piece, and how many bits of the last are
        unused (8.6)."""
        unused = ctypes.c_uint8()
        if _bits(self.rules, *self._primitive(3), ctypes.byref(unused)):
            raise self._refused()
        return bytes(self.contents[1:]), unused.value

    def octets(self) -> bytes:
        """Returns the octets of an OCTET STRING, joined if it was cut (8.7, 9.2, 10.2)."""
        self._is_of(4)
        return self._joined()

    def text(self, number: Optional[builtins.int] = None) -> str:
        """Returns a UTF8String, NumericString, PrintableString or IA5String.

        `number` is the type's universal tag, if the value has a tag of another class.
        """
        if number is None:
            number = self.tag.number if self.tag.cls is Class.UNIVERSAL else 0
        if number not in _SETS:
            raise Error(Kind.OTHER_TAG, self.offset, f"{self.tag}, not a character string")
        self._is_of(number)
        octets = self._joined()
        span = _Span(octets)
        if _SETS[number](*span.part(0, span.size)):
            raise self._refused()
        return octets.decode()

    def _joined(self) -> bytes:
        stop = self._contents_end()
        room, size = stop - self._start, ctypes.c_size_t()
        octets = ctypes.create_string_buffer(room or 1)
        status = _string(
            self.rules, self.constructed, *self._span.part(self._start, stop),
            ctypes.addressof(octets), room, ctypes.byref(size),
        )
        if status == 2:
            raise _error(status, self.offset)
        if status:
            raise self._refused()
        return octets.raw[:size.value]
