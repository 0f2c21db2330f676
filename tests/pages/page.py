"""A page of `toxi report`, read by Python's parsers of HTML and of XML."""
import re
import xml.etree.ElementTree as xml
from html.parser import HTMLParser

SVG = "{http://www.w3.org/2000/svg}"
TAGS = set("html head meta title style body main h1 h2 h3 dl div dt dd table caption thead tbody tr th td a section figure figcaption p".split())
DRAWN = set("svg title desc rect text path circle".split())


class Tags(HTMLParser):
    """Every tag of a text, as a browser sees it."""

    def __init__(self):
        super().__init__()
        self.seen = []

    def handle_starttag(self, tag, attributes):
        self.seen.append((tag, dict(attributes)))

    def handle_startendtag(self, tag, attributes):
        self.handle_starttag(tag, attributes)


class Row:
    def __init__(self, row):
        head = row.find("th")
        link = head.find("a")
        self.cells = ["".join(cell.itertext()) for cell in row]
        self.marked = row.get("class") == "marked"
        self.leads_to = None if link is None else link.get("href").removeprefix("#")


class Section:
    """The conversation of a link: its title, its rows, and its pictures by the ids of their figures."""

    def __init__(self, section, drawn):
        self.title = "".join(section.find("h3").itertext())
        self.name = section.find("h3").get("id")
        self.rows = [Row(row) for row in section.find(".//tbody")]
        figures = section.findall("figure")
        self.captions = {figure.get("id"): figure.find("figcaption").text for figure in figures}
        self.pictures = {name: drawn[name] for name in self.captions}


class Page:
    def __init__(self, text):
        self.text = text
        self.root = xml.fromstring(text)
        self.title = self.root.find("head/title").text
        self.heading = self.root.find("body/main/h1").text
        self.totals = {div.find("dt").text: div.find("dd").text for div in self.root.iter("div") if div.find("dt") is not None}
        self.rows = [Row(row) for row in self.root.find(".//tbody")]
        drawn = dict(re.findall(r'<figure id="([^"]*)">\n.*?\n(?:<div[^>]*>\n(.*?)</div>|<p>.*?</p>)\n</figure>', text, re.S))
        self.sections = {section.name: section for section in (Section(it, drawn) for it in self.root.iter("section"))}

    def faults(self):
        """What is wrong with the page, whatever its logs are."""
        return [*self.outside(), *self.names(), *self.form()]

    def outside(self):
        """Whatever runs or is fetched."""
        tags = Tags()
        tags.feed(self.text)
        tags.close()
        for tag, attributes in tags.seen:
            if tag not in TAGS | DRAWN:
                yield f"the tag {tag}"
            for key, value in attributes.items():
                if key.startswith("on") or key in ("src", "srcset", "style", "action", "data", "xlink:href"):
                    yield f"{tag} has {key}"
                if key == "href" and not value.startswith("#"):
                    yield f"{tag} leads to {value}"
        if re.search(r"url\(|@import|javascript:", "".join(style.text for style in self.root.iter("style"))):
            yield "a style refers to something"

    def names(self):
        """Ids that stand twice, and references to none."""
        ids = [element.get("id") for element in self.root.iter() if element.get("id")]
        yield from (f"the id {name} stands twice" for name in ids if ids.count(name) > 1)
        for element in self.root.iter():
            asked = (element.get("aria-labelledby") or "").split() + [it[1:] for it in [element.get("href")] if it]
            yield from (f"nothing has the id {name}" for name in asked if name not in ids)

    def form(self):
        """What a reader of the screen needs."""
        if not self.text.startswith("<!DOCTYPE html>\n") or self.root.get("lang") != "en":
            yield "it has no type or language"
        if self.root.find("head/title") is None or self.root.find("body/main/h1") is None:
            yield "it has no title"
        heads = [head.get("scope") for head in self.root.iter("th")]
        if any(scope not in ("col", "row") for scope in heads):
            yield "a head has no scope"
        for table in self.root.iter("table"):
            wide = columns(table.find("thead/tr"))
            if any(columns(row) != wide for row in table.find("tbody")):
                yield "a row has too few or too many cells"
        for picture in self.root.iter(f"{SVG}svg"):
            if picture.get("role") != "img" or picture.find(f"{SVG}title") is None:
                yield "a picture has no title"


def columns(row):
    return sum(int(cell.get("colspan", 1)) for cell in row)


def picture_alone(picture, place):
    """The picture of a log as it stands on a page at a place: the number of a conversation and a stream."""
    bare = re.sub(r"<style>.*</style>\n", "", picture, flags=re.S)
    return re.sub(r"toxi-(title|desc)", rf"toxi-\1-{place}", bare)


def time_axis(picture):
    """The marks of a picture's axis of time, each with its x."""
    return re.findall(r'<path class="axis" d="M(\d+) \d+V\d+"/>\n<text class="mid" x="\d+" y="\d+">([^<]*)</text>', picture)
