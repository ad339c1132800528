"""HTML files for tests: their elements, where the nesting is right, and the diagrams that are drawn in them."""
import dataclasses
import html.parser
import re

from models import draughts

VOID = {"meta", "link", "br", "hr", "img", "input", "col", "source", "wbr", "area", "base", "embed", "track"}
ONCE = "html", "head", "body", "title", "main", "h1"
# The elements that others may have as children, where that is less than any.
PHRASES = {"a", "b", "span", "small", "abbr", "time", "svg", "button", "wbr"}
CHILDREN = {**dict.fromkeys("p h1 h2 h3 figcaption summary dt dd a b span small abbr button".split(), PHRASES),
            "html": {"head", "body"}, "head": {"meta", "title", "link", "script"}, "ul": {"li"}, "ol": {"li"},
            "dl": {"div"}, "table": {"thead", "tbody"}, "thead": {"tr"}, "tbody": {"tr"}, "tr": {"th", "td"}}


@dataclasses.dataclass
class Element:
    """An element with its attributes, its children and its text."""

    tag: str
    attributes: dict
    parent: "Element | None"
    children: list = dataclasses.field(default_factory=list)
    words: list = dataclasses.field(default_factory=list)

    def all(self, tag=None):
        """The elements below it, in order."""
        for child in self.children:
            if tag in (None, child.tag):
                yield child
            yield from child.all(tag)

    def text(self):
        return "".join(it if isinstance(it, str) else it.text() for it in self.words)

    def above(self):
        """The elements around it, the innermost first."""
        at = self.parent
        while at:
            yield at
            at = at.parent


class Parser(html.parser.HTMLParser):
    """Reads a page, and collects what is wrong with it. SVG elements may end by `/>`, those of HTML only by a tag."""

    def __init__(self):
        super().__init__(convert_charrefs=True)
        self.top = self.at = Element("", {}, None)
        self.faults, self.doctypes = [], []

    def is_in_svg(self):
        return self.at.tag == "svg" or any(it.tag == "svg" for it in self.at.above())

    def add(self, tag, attributes):
        if len(dict(attributes)) != len(attributes):
            self.faults.append(f"<{tag}> has an attribute twice")
        child = Element(tag, dict(attributes), self.at)
        self.at.children.append(child)
        self.at.words.append(child)
        return child

    def handle_starttag(self, tag, attributes):
        child = self.add(tag, attributes)
        if tag not in VOID:
            self.at = child

    def handle_startendtag(self, tag, attributes):
        if not self.is_in_svg():
            self.faults.append(f"<{tag}/> is no end in HTML")
        self.add(tag, attributes)

    def handle_endtag(self, tag):
        if self.at.tag != tag:
            self.faults.append(f"</{tag}> ends <{self.at.tag}>")
        if self.at.parent:
            self.at = self.at.parent

    def handle_data(self, data):
        self.at.words.append(data)

    def handle_decl(self, declaration):
        self.doctypes.append(declaration)

    def finish(self):
        if self.at is not self.top:
            self.faults.append(f"<{self.at.tag}> is not ended")
        if self.doctypes != ["doctype html"]:
            self.faults.append(f"doctypes {self.doctypes}")
        tags = [it.tag for it in self.top.all()]
        self.faults += [f"{tags.count(it)} <{it}>" for it in ONCE if tags.count(it) != 1]
        self.faults += [f"<{it.tag}> in <{it.parent.tag}>" for it in self.top.all()
                        if it.tag not in CHILDREN.get(it.parent.tag, {it.tag})]
        self.faults += ["a caption in the middle of its figure" for it in self.top.all("figure")
                        if "figcaption" in [at.tag for at in it.children[1:-1]]]
        names = [it.attributes["id"] for it in self.top.all() if "id" in it.attributes]
        self.faults += sorted({f"the id {it} twice" for it in names if names.count(it) > 1})


def read_page(text):
    """The document of a page, and what is wrong with it."""
    parser = Parser()
    parser.feed(text)
    parser.close()
    parser.finish()
    bare = re.findall(r"<(?![A-Za-z/!]).{0,20}|&(?!#?\w+;).{0,20}", text)
    return parser.top, parser.faults + [f"an unescaped {it!r}" for it in bare]


def ids_of(page):
    return {it.attributes["id"] for it in page.all() if "id" in it.attributes}


def links_of(page):
    """Each address to which a page links, or of which it uses a file or an element."""
    return [it.attributes[name] for it in page.all() for name in ("href", "src") if name in it.attributes]


# ---- diagrams

def transformed(point, element):
    """Where a point of an element is in its picture, and whether it is upside down there."""
    x, y, is_turned = *point, False
    for it in (element, *element.above()):
        for name, numbers in reversed(re.findall(r"(\w+)\(([^)]*)\)", it.attributes.get("transform", ""))):
            values = [float(it) for it in numbers.split()]
            if name == "translate":
                x, y = x + values[0], y + values[1]
            else:
                about = values[1:] or [0, 0]
                assert name == "rotate" and values[0] == 180, name
                x, y, is_turned = 2 * about[0] - x, 2 * about[1] - y, not is_turned
    return x, y, is_turned


def drawn(group, names):
    """The pieces of these names that a picture uses, each with its middle, and whether it is upside down."""
    for it in group.all("use"):
        name = it.attributes["href"][1:]
        if name in names:
            point = float(it.attributes["x"]) + 50, float(it.attributes["y"]) + 55
            yield name, *transformed(point, it)


def drawn_draughts(group):
    """The pieces of a diagram of draughts, as models.draughts has them."""
    pieces = {}
    for name, x, y, is_turned in drawn(group, "wWbB"):
        assert not is_turned
        square = draughts.SQUARES[int(y // 100), int(x // 100)]
        assert square not in pieces, square
        pieces[square] = name.upper(), name.isupper()
    return pieces


def drawn_shogi(group):
    """The board and the hands of a diagram of shogi, as models.shogi has them. Counts stand beside pieces in hand."""
    board, hands, counts = {}, {}, []
    for it in group.all("text"):
        if it.attributes.get("class") == "count":
            counts.append((float(it.attributes["x"]), float(it.attributes["y"]), int(it.text())))
    names = {*"KkRBGSNLP", *(f"+{it}" for it in "RBSNLP")}
    for name, x, y, is_turned in drawn(group, names):
        side, kind = "bw"[is_turned], name[-1].upper()
        if 170 < y < 1160:
            square = 9 - int((x - 20) // 100), 1 + int((y - 170) // 110)
            assert square not in board and 1 <= square[0] <= 9, square
            board[square] = side, kind, name[0] == "+"
        else:
            beside = [count for at, level, count in counts if abs(at - x) < 60 and abs(level - y) < 70]
            hands[side, kind] = beside[0] if beside else 1
    return board, hands
