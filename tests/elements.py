"""A page as a tree of elements, read as HTML and as XML, which must be the same tree."""
import html.parser
import xml.etree.ElementTree as xml

from claims import expect

VOID = ("meta", "input")


class Reader(html.parser.HTMLParser):
    """Reads a page as HTML: a tree such as the XML reader's."""

    def __init__(self):
        super().__init__()
        self.open, self.root = [], None

    def handle_starttag(self, tag, attributes):
        element = xml.Element(tag, dict(attributes))
        expect(self.root is None or self.open, "a second root", tag)
        if self.open:
            self.open[-1].append(element)
        self.root = element if self.root is None else self.root
        if tag not in VOID:
            self.open.append(element)

    def handle_startendtag(self, tag, attributes):
        self.handle_starttag(tag, attributes)
        if tag not in VOID:
            self.open.pop()

    def handle_endtag(self, tag):
        expect(self.open and self.open[-1].tag == tag, "an end tag of", tag)
        self.open.pop()

    def handle_data(self, text):
        if not self.open:
            expect(not text.strip(), "text outside of the root", text)
        elif len(self.open[-1]):
            last = self.open[-1][-1]
            last.tail = (last.tail or "") + text
        else:
            self.open[-1].text = (self.open[-1].text or "") + text


def shape(element):
    """An element as a value: its tag, attributes, text and content. The XML reader lowers no name, as the HTML reader does."""
    attributes = {name.lower(): value for name, value in element.attrib.items()}
    return element.tag.lower(), attributes, element.text or "", element.tail or "", [shape(part) for part in element]


def root_of(page):
    """Reads a page, and fails the test where both readers see different trees."""
    text = page.decode("utf-8")
    expect(text.startswith("<!DOCTYPE html>\n<html "), "a page begins", text[:80])
    reader = Reader()
    reader.feed(text)
    reader.close()
    expect(not reader.open, "elements without an end", [element.tag for element in reader.open])
    root = xml.fromstring(text)
    one, other = shape(reader.root), shape(root)
    expect((one[:2], one[4]) == (other[:2], other[4]), "HTML and XML differ")
    return root


def text_of(element):
    return "".join(element.itertext())


def first(element, path):
    """The one element at a path."""
    found = element.findall(path)
    expect(len(found) == 1, len(found), "elements at", path)
    return found[0]


def rows_of(table):
    """The cells of the rows of a table's body."""
    return [list(row) for row in table.findall("./tbody/tr")]
