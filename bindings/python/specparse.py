"""HTML parsed by specparse: its shared object, by ctypes.

    import specparse
    page = specparse.parse(b"<p class=x>a<b>c")
    p = next(node for node in page.descendants() if node.name == "p")
    print(p.attributes, p.text_content())        # {'class': 'x'} ac
    print(specparse.run(b"<p>a<script src=s></script>", {"s": b'document.write("b");'}))

The shared object is bindings/out/libspecparse.so, or what SPECPARSE_SO names. Other threads of
Python run while a page is parsed."""
import ctypes
import mmap
import os

_HERE = os.path.dirname(os.path.abspath(__file__))
_NONE = 0xFFFFFFFF
_KINDS = ("document", "element", "text", "comment", "doctype", "contents")
_SPACES = ("html", "mathml", "svg")
_REFUSED = {2: "no such context, or a name that isn't UTF-8", 4: "not UTF-8", 5: "a limit is passed"}


class Refused(ValueError):
    """There is no tree: the page isn't UTF-8, passes a limit, or there is no such context, or a
    script's name isn't UTF-8. `status` says which, and `printed` what a run printed up to there."""

    def __init__(self, status, printed=""):
        super().__init__(_REFUSED.get(status, "status %d" % status))
        self.status, self.printed = status, printed


class _Sizes(ctypes.Structure):
    _fields_ = [(name, ctypes.c_size_t) for name in ("nodes", "attributes", "text", "root")]


def _load():
    own = os.path.join(_HERE, "..", "out", "libspecparse.so")
    library = ctypes.CDLL(os.environ.get("SPECPARSE_SO", own))
    piece = [ctypes.c_void_p, ctypes.c_size_t]
    library.sp_parse.argtypes = piece * 5 + [ctypes.POINTER(_Sizes)]
    library.sp_fragment.argtypes = (
        piece * 2 + [ctypes.c_uint32] * 2 + piece * 4 + [ctypes.POINTER(_Sizes)])
    library.sp_html.argtypes = piece * 3 + [ctypes.POINTER(ctypes.c_size_t)]
    library.sp_run.argtypes = (
        piece * 4 + [ctypes.c_uint32] + piece + [ctypes.POINTER(ctypes.c_size_t)])
    for call in (library.sp_parse, library.sp_fragment, library.sp_html, library.sp_run):
        call.restype = ctypes.c_uint32
    return library


_LIBRARY = _load()
# the standard's list of entities: what each call wants first
_ENTITIES = (
    ctypes.addressof(ctypes.c_char.in_dll(_LIBRARY, "sp_standard_entities")),
    ctypes.c_size_t.in_dll(_LIBRARY, "sp_standard_entities_length").value)


def _bytes(text):
    return text.encode() if isinstance(text, str) else bytes(text)


def _given(text):
    # The pointer of an empty bytes object isn't null either.
    return ctypes.cast(ctypes.c_char_p(text), ctypes.c_void_p), len(text)


def _room(size):
    # Large rooms are guessed too large: what isn't written to isn't held so.
    place = mmap.mmap(-1, size) if size > 1 << 20 else bytearray(size)
    return (ctypes.c_uint8 * size).from_buffer(place)


def _check(status):
    if status == 12:
        raise MemoryError
    if status:
        raise Refused(status)


def _tree(length, call):
    sizes = _Sizes(length // 2 + 64, length // 4 + 64, length + length // 8 + 256, 0)
    while True:
        # One byte more, so that no pointer is null.
        nodes, attributes = _room(sizes.nodes * 48 + 1), _room(sizes.attributes * 16 + 1)
        text = _room(sizes.text + 1)
        status = call(nodes, sizes.nodes, attributes, sizes.attributes, text, sizes.text,
                      ctypes.byref(sizes))
        if status != 13:
            _check(status)
            return Document(nodes, attributes, text, sizes)


def parse(page):
    """The tree of a page (bytes, or str). Its scripts don't run."""
    page = _bytes(page)
    return _tree(len(page), lambda *rooms: _LIBRARY.sp_parse(*_ENTITIES, *_given(page), *rooms))


def fragment(name, source, space="html", html_point=False, in_form=False, quirks=False):
    """What a text comes to as the children of an element of that name and namespace, as innerHTML
    makes it: the children of `root`. Of the element the others say that it is an annotation-xml
    which is an HTML integration point; that it is a form, or stands in one; that its document is
    in quirks mode."""
    name, source = _bytes(name), _bytes(source)
    flags = bool(html_point) + 2 * bool(in_form) + 4 * bool(quirks)
    words = *_ENTITIES, *_given(name), _SPACES.index(space), flags, *_given(source)
    return _tree(len(source), lambda *rooms: _LIBRARY.sp_fragment(*words, *rooms))


def _text(guess, call):
    """What a call fills of its room, and its status."""
    needed = ctypes.c_size_t(guess)
    while True:
        text = _room(needed.value + 1)
        status = call(text, needed.value, ctypes.byref(needed))
        if status != 13:
            return bytes(memoryview(text)[: needed.value]).decode(), status


def html(page):
    """The HTML of a page's tree."""
    page = _bytes(page)
    text, status = _text(len(page) + len(page) // 4 + 256,
                         lambda *room: _LIBRARY.sp_html(*_ENTITIES, *_given(page), *room))
    _check(status)
    return text


def _laid(scripts):
    """Rows of four numbers, and the bytes of which they say the parts."""
    rows, laid = [], bytearray()
    for part in (_bytes(part) for script in scripts.items() for part in script):
        rows += [len(laid), len(part)]
        laid += part
    if len(laid) > _NONE:
        raise MemoryError
    # One row more, so that no pointer is null.
    return (ctypes.c_uint32 * (len(rows) + 4))(*rows), bytes(laid)


def run(page, scripts=(), dump=False):
    """Runs a page with its scripts, as the command does, and gives what it prints: a line for what
    each script read, and then the tree's text, or its dump. `scripts` is a dict of names and texts;
    one that isn't among them is missing."""
    page, scripts = _bytes(page), dict(scripts)
    rows, laid = _laid(scripts)
    words = *_ENTITIES, *_given(page), rows, len(scripts), *_given(laid), bool(dump)
    text, status = _text(len(page) + len(page) // 4 + 4096,
                         lambda *room: _LIBRARY.sp_run(*words, *room))
    if status in (4, 5):
        raise Refused(status, text)
    _check(status)
    return text


class Document:
    """The tree of a page or of a fragment."""

    def __init__(self, nodes, attributes, text, sizes):
        self._nodes = memoryview(nodes).cast("B")[: sizes.nodes * 48].cast("I")
        self._attributes = memoryview(attributes).cast("B")[: sizes.attributes * 16].cast("I")
        self._text = memoryview(text).cast("B")[: sizes.text]
        self.root = Node(self, sizes.root)

    def descendants(self):
        """All nodes, in tree order, the root first."""
        return self.root.descendants()

    def _str(self, words, at):
        return str(self._text[words[at] : words[at] + words[at + 1]], "utf-8")


class Node:
    """A node of a tree."""

    __slots__ = ("document", "number")

    def __init__(self, document, number):
        self.document, self.number = document, number

    def __eq__(self, other):
        return (isinstance(other, Node) and self.document is other.document
                and self.number == other.number)

    def __hash__(self):
        return hash((id(self.document), self.number))

    def __repr__(self):
        return "<%s %s>" % (self.kind, self.name or repr(self.text or ""))

    def _word(self, which):
        return self.document._nodes[12 * self.number + which]

    def _words(self):
        return self.document._str(self.document._nodes, 12 * self.number + 10)

    def _link(self, which):
        number = self._word(which)
        return None if number == _NONE else Node(self.document, number)

    kind = property(lambda self: _KINDS[self._word(0)],
                    doc="document, element, text, comment, doctype or contents.")
    space = property(lambda self: _SPACES[self._word(1)], doc="Of an element: html, mathml or svg.")
    parent = property(lambda self: self._link(2))
    first_child = property(lambda self: self._link(3))
    last_child = property(lambda self: self._link(4))
    previous = property(lambda self: self._link(5))
    next = property(lambda self: self._link(6))
    contents = property(lambda self: self._link(7),
                        doc="Of a template, the node whose children are its contents.")

    @property
    def name(self):
        """The name of an element or of a doctype, else None."""
        return self._words() if self._word(0) in (1, 4) else None

    @property
    def text(self):
        """The text of a text or of a comment, else None."""
        return self._words() if self._word(0) in (2, 3) else None

    @property
    def attributes(self):
        """A dict, in the attributes' order."""
        own, document = range(self._word(8), self._word(8) + self._word(9)), self.document
        words, text = document._attributes, document._str
        return {text(words, 4 * i): text(words, 4 * i + 2) for i in own}

    def children(self):
        """Its children, in order."""
        at = self.first_child
        while at is not None:
            yield at
            at = at.next

    def descendants(self):
        """The node itself and all under it, in tree order."""
        at = self
        while at is not None:
            yield at
            below = at.first_child
            while below is None and at is not None and at.number != self.number:
                below = at.next
                if below is None:
                    at = at.parent
            at = below

    def text_content(self):
        """The texts under it, joined."""
        return "".join(node.text for node in self.descendants() if node.kind == "text")
