"""A process of a tree that commits a transaction at all of its stores or at none, linked into Python.

It stands over the C library alone (ctypes, the standard library): librstar.so lies beside this file, or RSTAR_LIBRARY
names it. docs/LIBRARY.md tells of the lines and answers, which are those of `rstar node`.

    with rstar.Node(tree, 1, "1.log", new=True) as node:
        for line in node.opening + node.line("begin pa"):
            ...
"""
import ctypes
import os
import threading

_lib = ctypes.CDLL(os.environ.get("RSTAR_LIBRARY") or os.path.join(os.path.dirname(os.path.abspath(__file__)), "librstar.so"),
                   use_errno=True)
_SIZE, _UINT, _TEXT = ctypes.c_size_t, ctypes.c_uint, ctypes.c_char_p
_TO_SIZE, _TO_UINT = ctypes.POINTER(ctypes.c_size_t), ctypes.POINTER(ctypes.c_uint)


class _Handle(ctypes.Structure):
    _fields_ = [("at", ctypes.c_void_p), ("file", ctypes.c_void_p)]


_HANDLE = ctypes.POINTER(_Handle)


def _declare(name, *types):
    function = getattr(_lib, name)
    function.restype, function.argtypes = _UINT, types
    return function


_version = _declare("rstar_version")
_open = _declare("rstar_node_open", _TEXT, _SIZE, _UINT, _TEXT, _SIZE, _UINT, _HANDLE)
_line = _declare("rstar_node_line", _HANDLE, _TEXT, _SIZE, _TEXT, _SIZE, _TO_SIZE)
_answer = _declare("rstar_node_answer", _HANDLE, _TEXT, _SIZE, _TO_SIZE)
_close = _declare("rstar_node_close", _HANDLE)
_audit = _declare("rstar_audit", _TEXT, _SIZE, _UINT, _TEXT, _SIZE, _TO_SIZE, _TO_UINT)
_log = _declare("rstar_log", _TEXT, _SIZE, _TEXT, _SIZE, _TO_SIZE, _TO_UINT)
_xid_text = _declare("rstar_xid_text", _TEXT, _SIZE, _TEXT, _SIZE, _TO_SIZE)
_xid_bytes = _declare("rstar_xid_bytes", _TEXT, _SIZE, _TEXT, _SIZE, _TO_SIZE)
_xid_of_case = _declare("rstar_xid_of_case", _UINT, _UINT, _TEXT, _SIZE, _TEXT, _SIZE, _TO_SIZE)
_xid_case = _declare("rstar_xid_case", _TEXT, _SIZE, _TO_UINT, _TO_UINT, _TEXT, _SIZE, _TO_SIZE)

VERSION = 1
if _version() != VERSION:
    raise ImportError(f"librstar.so is of version {_version()}, and this module of {VERSION}")

DONE, OPEN, CLOSED = 0, 18, 26
REASONS = {
    1: "the tree's text cannot be read", 2: "its processes are no tree", 3: "the tree has no such process",
    4: "the name has no bytes, or a zero byte", 5: "the log is in use", 6: "there is no log", 7: "there is a log",
    8: "the log's file is damaged", 9: "the system refused a call", 10: "it is the log of another process",
    11: "the log is damaged", 12: "its records are not those of a process of this kind", 13: "it is a log of the first format",
    14: "it is not a file", 15: "the file has a second name", 16: "so no node is opened", 17: "the tree's text is not UTF-8",
    18: "the handle is of an open node", 19: "a place is null", 21: "out of memory", 23: "the log's file failed",
    24: "numbers are used up", 25: "a line `end` was answered before", 26: "the node is closed",
    28: "an earlier answer waits", 31: "the format of an XID is negative", 32: "the gtrid of an XID is not 1 to 64 bytes long",
    33: "the bqual of an XID is longer than 64 bytes", 34: "the bytes of an XID are cut short",
    35: "there are bytes after an XID", 36: "the text does not spell an XID", 37: "it is no case",
    38: "the XID names no case of a tree",
}


class Refused(Exception):
    """Why there is no answer: its number in rstar.h, and the system's reason if there is one."""

    def __init__(self, number, reason=0):
        told = REASONS.get(number, str(number))
        super().__init__(f"{told}: {os.strerror(reason)}" if reason and number in (9, 23) else told)
        self.number, self.errno = number, reason


def _check(number):
    if number != DONE:
        raise Refused(number, ctypes.get_errno())


def _bytes(text):
    return text.encode() if isinstance(text, str) else bytes(text)


def _fetched(call):
    """What a call tells: call(room, its size, the size of what is told) is made again if the room was short."""
    size, room = _SIZE(), ctypes.create_string_buffer(512)
    for _ in range(2):
        _check(call(room, len(room), ctypes.byref(size)))
        if size.value <= len(room):
            return room.raw[:size.value]
        room = ctypes.create_string_buffer(size.value)
    raise AssertionError("what is told has grown")


class Node:
    """An open node of a process of a tree, over the log in a file.

    tree is the text of the tree's TOML file, path the name of the log's file; new makes it. opening has the lines of what
    the process did as it opened: hand the messages among them on. A node answers on the thread that opened it."""

    def __init__(self, tree, process, path, new=False):
        self._handle, self._room = _Handle(), ctypes.create_string_buffer(4096)
        self._thread, self._process = threading.get_ident(), os.getpid()
        self._is_open = False
        tree, path = _bytes(tree), os.fsencode(path)
        _check(_open(tree, len(tree), process, path, len(path), int(bool(new)), ctypes.byref(self._handle)))
        self._is_open = True
        self.opening = self._lines(0, again=True)

    def _lines(self, size, again=False):
        if again or size > len(self._room):
            found = _SIZE()
            for _ in range(2):
                _check(_answer(ctypes.byref(self._handle), self._room, len(self._room), ctypes.byref(found)))
                size = found.value
                if size <= len(self._room):
                    break
                self._room = ctypes.create_string_buffer(size)
        return ctypes.string_at(self._room, size).decode().split("\n")[:-1]

    def _own(self):
        if not self._is_open:
            raise Refused(CLOSED)
        if threading.get_ident() != self._thread or os.getpid() != self._process:
            raise RuntimeError("a node answers on the thread that opened it, and not in a forked child")

    def line(self, text):
        """The lines of the answer to a line. Refused: there is none; RuntimeError: it is another thread's node."""
        self._own()
        text, size = _bytes(text), _SIZE()
        _check(_line(ctypes.byref(self._handle), text, len(text), self._room, len(self._room), ctypes.byref(size)))
        return self._lines(size.value)

    def close(self):
        """Forces what stands in the log, and releases node, file and lock. Refused: not all was forced. A second close
        does nothing."""
        if self._is_open:
            self._own()
            self._is_open = False
            _check(_close(ctypes.byref(self._handle)))

    def __enter__(self):
        return self

    def __exit__(self, *_):
        self.close()

    def __del__(self):
        if getattr(self, "_is_open", False) and os.getpid() == self._process and threading.get_ident() == self._thread:
            self._is_open = False
            _close(ctypes.byref(self._handle))


def audit(logs, explain=False):
    """The report of an audit of the text that `rstar tree --logs` writes, and the exit status of `rstar audit`."""
    logs, ending = _bytes(logs), _UINT()
    told = _fetched(lambda room, room_size, size: _audit(logs, len(logs), int(explain), room, room_size, size, ctypes.byref(ending)))
    return told.decode(), ending.value


def log(logs):
    """What the logs of that text hold, and the exit status of `rstar log`."""
    logs, ending = _bytes(logs), _UINT()
    told = _fetched(lambda room, room_size, size: _log(logs, len(logs), room, room_size, size, ctypes.byref(ending)))
    return told.decode(), ending.value


def xid_text(xid):
    """The text of the XID of these bytes."""
    return _fetched(lambda room, room_size, size: _xid_text(xid, len(xid), room, room_size, size)).decode()


def xid_bytes(text):
    """The bytes of the XID of this text."""
    text = _bytes(text)
    return _fetched(lambda room, room_size, size: _xid_bytes(text, len(text), room, room_size, size))


def xid_of_case(root, parent, case):
    """The bytes of the XID of a case; the root's own has parent 0."""
    case = _bytes(case)
    return _fetched(lambda room, room_size, size: _xid_of_case(root, parent, case, len(case), room, room_size, size))


def xid_case(xid):
    """The root, the parent (0 at the root) and the case that an XID of these bytes names."""
    root, parent = _UINT(), _UINT()
    case = _fetched(lambda room, room_size, size: _xid_case(xid, len(xid), ctypes.byref(root), ctypes.byref(parent), room, room_size, size))
    return root.value, parent.value, case.decode()
