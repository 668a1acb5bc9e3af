"""Structural indexes of graph data: the calls of pathindex.h by ctypes.

    from pathindex import Pathindex

    with Pathindex("<x:ana> <x:knows> <x:bo> .") as graph:
        for node in graph.path("<x:knows>/iri", via="one"):
            print(node)

A graph is loaded from N-Triples: a string, bytes, an open file, or an object that serializes itself, as rdflib.Graph does. Nodes are
numbers. The library is libpathindex.so, which `make library` builds: it is looked for beside this file, in ../bin, and where
PATHINDEX_LIBRARY says.
"""
import contextlib
import ctypes
import os
import pathlib
from collections import namedtuple
from ctypes import POINTER, byref, c_char_p, c_int, c_size_t, c_uint32, c_uint64, c_void_p

__all__ = ["Pathindex", "Answer", "Size", "Error", "NoNode", "NoEdge", "LimitReached", "NoIndex", "ParseError", "Misuse"]


class Error(Exception):
    """A call that wasn't carried out. The graph, its indexes and what was found last are as before."""


class NoNode(Error, LookupError):
    """A node of the call, or the triple to delete, isn't there."""


class NoEdge(Error, LookupError):
    """The edge isn't there."""


class LimitReached(Error):
    """A limit of the library is reached. `line` is the number of a line of triples, from 1 on, or None."""

    line = None


class NoIndex(Error, LookupError):
    """The index isn't kept."""


class ParseError(Error, ValueError):
    """A text spells nothing of its kind. `line` is the number of a line of triples, from 1 on, or None."""

    line = None


class Misuse(Error, ValueError):
    """The call has no meaning, or none at that time: the graph is closed, or no group is begun."""


_ERRORS = {1: NoNode, 2: NoEdge, 4: LimitReached, 5: NoIndex, 6: ParseError, 7: MemoryError, 8: Misuse}
_VIAS = {"data": 32, "one": 33, "fb": 34} | {f"a{i}": i for i in range(9)} | {f"b{i}": 16 + i for i in range(9)}
_KINDS = {"a": 0, "b": 16, "one": 33, "fb": 34}
_HOWS = "graph", "exact", "checked"

Size = namedtuple("Size", "blocks edges")
Size.__doc__ = "The blocks and edges of an index; of the graph itself its nodes and edges."


class Answer(tuple):
    """The nodes that answer a query, rising. `how` is 'graph', 'exact' or 'checked', and `candidates` how many nodes the index offered."""

    how = "graph"
    candidates = 0


class _Handle(ctypes.Structure):
    _fields_ = [("held", c_void_p)]


class _Found(ctypes.Structure):
    _fields_ = [("count", c_uint64), ("candidates", c_uint64), ("how", c_uint32)]


_H, _TEXT = POINTER(_Handle), [c_char_p, c_size_t]
_CALLS = {
    "open": (c_int, [_H, *_TEXT, c_uint32, c_uint32, POINTER(c_uint64)]),
    "close": (None, [_H]),
    "node": (c_int, [_H, *_TEXT, POINTER(c_uint32)]),
    "link": (c_int, [_H, c_uint32, c_uint32]),
    "unlink": (c_int, [_H, c_uint32, c_uint32]),
    "drop": (c_int, [_H, c_uint32]),
    "relabel": (c_int, [_H, c_uint32, *_TEXT]),
    "begin": (c_int, [_H]),
    "end": (c_int, [_H]),
    "cancel": (c_int, [_H]),
    "insert": (c_int, [_H, *_TEXT]),
    "delete": (c_int, [_H, *_TEXT]),
    "path": (c_int, [_H, c_uint32, *_TEXT, POINTER(_Found)]),
    "branch": (c_int, [_H, c_uint32, *_TEXT, POINTER(_Found)]),
    "nodes": (c_size_t, [_H, c_size_t, POINTER(c_uint32), c_size_t]),
    "why": (c_int, [_H, c_uint32, *_TEXT, POINTER(c_uint64)]),
    "walk": (c_size_t, [_H, c_size_t, POINTER(c_uint32), c_size_t]),
    "check": (c_int, [_H, c_uint32, POINTER(c_uint32), c_size_t, *_TEXT, POINTER(c_int)]),
    "extents": (c_int, [_H, c_uint32, POINTER(c_uint64)]),
    "sizes": (c_int, [_H, POINTER(c_uint64)]),
    "save": (c_int, [_H, POINTER(c_uint64)]),
    "text": (c_size_t, [_H, c_size_t, c_char_p, c_size_t]),
    "forget": (c_int, [_H, c_uint32]),
    "node_count": (c_uint64, [_H]),
    "edge_count": (c_uint64, [_H]),
    "next": (c_uint64, [_H]),
    "word": (c_char_p, [c_int]),
}


def _load():
    here = pathlib.Path(__file__).resolve().parent
    named = os.environ.get("PATHINDEX_LIBRARY")
    places = [pathlib.Path(named)] if named else [here / "libpathindex.so", here.parent / "bin" / "libpathindex.so"]
    for place in places:
        if place.exists():
            library = ctypes.CDLL(str(place))
            break
    else:
        raise ImportError(f"libpathindex.so isn't at {' or '.join(map(str, places))}: `make library` builds it")
    for name, (result, arguments) in _CALLS.items():
        call = getattr(library, "pathindex_" + name)
        call.restype, call.argtypes = result, arguments
    return library


_library = _load()


def _bytes(text):
    return text.encode() if isinstance(text, str) else bytes(text)


def _triples(source):
    """The bytes of N-Triples that a source has."""
    if hasattr(source, "serialize"):
        source = source.serialize(format="nt")
    elif hasattr(source, "read"):
        source = source.read()
    return _bytes(source)


def _number(names, name):
    try:
        return names[name]
    except KeyError:
        raise Misuse(f"{name!r} is none of {', '.join(names)}") from None


def _is_node(number):
    """Whether a node may have that number, which a C call would cut to 32 bits."""
    return 0 <= number < 2**32


def _raise(code, line=None):
    word = _library.pathindex_word(code).decode()
    error = _ERRORS.get(code, Error)(f"line {line}: {word}" if line else word)
    if line:
        error.line = line
    raise error


class Pathindex:
    """A graph and its indexes, until it is closed.

    `triples` is a string or bytes of N-Triples, an open file, or an object with `serialize(format="nt")`. The A(k)-indexes of the
    levels 0 to `k` are kept, at most 8; the 1-index and the forward and backward index, unless left out; and with `bounded` the
    bounded forward and backward indexes. A line at fault raises ParseError or LimitReached with its number.

    Labels are names, or IRIs in angle brackets. `via` and `index` are 'a0' to 'a8', 'b0' to 'b8', 'one', 'fb', and 'data' for the
    graph itself. A graph may be used from any thread, one call at a time.
    """

    def __init__(self, triples=b"", *, k=2, one=True, fb=True, bounded=False):
        self._handle, line, text = _Handle(), c_uint64(0), _triples(triples)
        if not 0 <= k <= 8:
            raise Misuse(f"the highest level is 0 to 8, and not {k}")
        flags = (not one) + 2 * (not fb) + 4 * bool(bounded)
        code = _library.pathindex_open(byref(self._handle), text, len(text), k, flags, byref(line))
        if code:
            _raise(code, line.value)

    @classmethod
    def from_file(cls, path, **kept):
        """The graph of a file of N-Triples, and its indexes as for the class."""
        with open(path, "rb") as file:
            return cls(file, **kept)

    def close(self):
        """Frees the memory. A second time does nothing; any other call then raises Misuse."""
        _library.pathindex_close(byref(self._handle))

    def __enter__(self):
        return self

    def __exit__(self, *_):
        self.close()

    def __del__(self):
        if getattr(self, "_handle", None) is not None and self._handle.held:
            self.close()

    def _held(self):
        if not self._handle.held:
            raise Misuse("the graph is closed")
        return byref(self._handle)

    def _nodes(self, *nodes):
        """The numbers, unless one is past those that a node may have."""
        for node in nodes:
            if not _is_node(node):
                raise NoNode(f"n{node}")
        return nodes

    def _call(self, name, *arguments):
        code = getattr(_library, "pathindex_" + name)(byref(self._handle), *arguments)
        if code:
            _raise(code)

    # changes

    def node(self, label):
        """Adds a node, and gives its number; None within a group, where it isn't added yet."""
        text, number = _bytes(label), c_uint32(0xFFFFFFFF)
        self._call("node", text, len(text), byref(number))
        return None if number.value == 0xFFFFFFFF else number.value

    def link(self, start, end):
        """Adds an edge; one that is there already is left."""
        self._call("link", *self._nodes(start, end))

    def unlink(self, start, end):
        """Takes away an edge."""
        self._call("unlink", *self._nodes(start, end))

    def drop(self, node):
        """Takes away a node and its edges."""
        self._call("drop", *self._nodes(node))

    def relabel(self, node, label):
        """Gives a node another label."""
        text = _bytes(label)
        self._call("relabel", *self._nodes(node), text, len(text))

    @contextlib.contextmanager
    def group(self):
        """The changes in the block are made as one, at its end: all of them, or none where one is refused, which raises. The nodes that they
        add get the numbers from `next_node` on, so later changes can name them. Where the block raises, none is made."""
        self._call("begin")
        try:
            yield self
        except BaseException:
            self._call("cancel")
            raise
        self._call("end")

    def insert(self, triple):
        """Inserts a triple, given as a line of N-Triples; one that is there already is left."""
        text = _bytes(triple).rstrip(b"\r\n")
        self._call("insert", text, len(text))

    def delete(self, triple):
        """Deletes a triple, given as a line of N-Triples; NoNode where it isn't there."""
        text = _bytes(triple).rstrip(b"\r\n")
        self._call("delete", text, len(text))

    # questions

    def _copied(self, name, count):
        nodes = (c_uint32 * count)()
        copied = getattr(_library, "pathindex_" + name)(byref(self._handle), 0, nodes, count)
        return nodes[:copied]

    def _ask(self, language, text, via):
        text, found = _bytes(text), _Found()
        self._call(language, _number(_VIAS, via), text, len(text), byref(found))
        answer = Answer(self._copied("nodes", found.count))
        answer.how, answer.candidates = _HOWS[found.how], found.candidates
        return answer

    def path(self, text, via="data"):
        """The answers of a path expression, as "<x:knows>/iri"."""
        return self._ask("path", text, via)

    def branch(self, text, via="data"):
        """The answers of a branching query, as "iri[/<x:knows>]"."""
        return self._ask("branch", text, via)

    def why(self, node, text):
        """The least walk, as a list of nodes, that shows why a node answers a path expression; None where it doesn't."""
        text, count = _bytes(text), c_uint64(0)
        self._call("why", *self._nodes(node), text, len(text), byref(count))
        return self._copied("walk", count.value) if count.value else None

    def check(self, walk, text):
        """Whether these nodes are a walk that shows that the last of them answers a path expression."""
        walk, text, shows = list(walk), _bytes(text), c_int(0)
        self._held()
        if not walk or not all(map(_is_node, walk)):
            return False
        nodes = (c_uint32 * len(walk))(*walk)
        self._call("check", walk[-1], nodes, len(walk), text, len(text), byref(shows))
        return shows.value == 1

    def _list(self, length):
        text = ctypes.create_string_buffer(length.value + 1)
        copied = _library.pathindex_text(byref(self._handle), 0, text, length.value)
        return text.raw[:copied].decode()

    def extents_text(self, index):
        """The blocks of an index as the program prints them."""
        length = c_uint64(0)
        self._call("extents", _number(_VIAS, index), byref(length))
        return self._list(length)

    def extents(self, index):
        """The blocks of an index, each as its label and the list of its nodes."""
        for line in self.extents_text(index).split("\n")[1:-1]:
            label, *nodes = line.split(" ")
            yield label, [int(node[1:]) for node in nodes]

    def sizes_text(self):
        """The sizes of the graph and of its indexes as the program prints them."""
        length = c_uint64(0)
        self._call("sizes", byref(length))
        return self._list(length)

    def sizes(self):
        """The sizes of the graph, under 'data', and of each index that is kept, under its name."""
        sizes = {}
        for line in self.sizes_text().split("\n")[:-1]:
            words = line.split(" ")
            name = "data" if words[0] == "nodes" else words[0]
            sizes[name] = Size(int(words[-3]), int(words[-1]))
        return sizes

    def save_text(self):
        """The graph and its indexes as an index file, which `pathindex --check` reads."""
        length = c_uint64(0)
        self._call("save", byref(length))
        return self._list(length)

    def save(self, path):
        """Writes the graph and its indexes to a file, as an index file."""
        text = self.save_text()
        with open(path, "w", encoding="utf-8", newline="\n") as file:
            file.write(text)

    def forget(self, kind):
        """Drops the indexes of a kind: 'a', 'b', 'one' or 'fb'."""
        self._call("forget", _number(_KINDS, kind))

    @property
    def node_count(self):
        """How many nodes the graph has."""
        return _library.pathindex_node_count(self._held())

    @property
    def edge_count(self):
        """How many edges it has."""
        return _library.pathindex_edge_count(self._held())

    @property
    def next_node(self):
        """The number that the next node gets."""
        return _library.pathindex_next(self._held())
