"""Faults in the markup of pages, by html5lib: what a checker of accessibility would report without a browser."""
import collections
import html5lib

NAMESPACE = "{http://www.w3.org/1999/xhtml}"
ROLES = {"table": "table", "thead": "rowgroup", "tbody": "rowgroup", "tr": "row", "th": "columnheader", "td": "cell"}


def name_of(element):
    """The name of an element without its namespace; empty for a comment."""
    return element.tag.removeprefix(NAMESPACE) if isinstance(element.tag, str) else ""


def text_of(element):
    return " ".join("".join(element.itertext()).split())


class Page:
    """A page, read: its elements in order."""

    def __init__(self, path):
        parser = html5lib.HTMLParser(strict=False)
        with open(path, "rb") as file:
            self.root = parser.parse(file, transport_encoding="utf-8")
        self.errors = [f"{place}: {code}" for place, code, _ in parser.errors]
        self.elements = [element for element in self.root.iter() if name_of(element)]

    def all(self, *names):
        return [element for element in self.elements if name_of(element) in names]

    @property
    def title(self):
        return "".join(text_of(element) for element in self.all("title"))


def heading_faults(page):
    """One h1 comes first, and no level is left out."""
    levels = [int(name_of(element)[1]) for element in page.all("h1", "h2", "h3", "h4", "h5", "h6")]
    if levels[:1] != [1] or levels.count(1) != 1:
        yield f"headings {levels}: one h1 is due, as the first"
    for before, after in zip(levels, levels[1:]):
        if after > before + 1:
            yield f"headings {levels}: h{after} stands below h{before}"
    yield from (f"an empty {name_of(element)}" for element in page.all("h1", "h2", "h3") if not text_of(element))


def label_faults(page):
    """Each field has a label, each label a field; each link and button has a text, and each picture one, too."""
    ids = collections.Counter(element.get("id") for element in page.elements if element.get("id"))
    yield from (f"the id {name} stands {count} times" for name, count in ids.items() if count > 1)
    named = {element.get("for") for element in page.all("label")}
    for element in page.all("input", "select", "textarea"):
        if element.get("id") not in named and not element.get("aria-label"):
            yield f"a field without a label: {element.attrib}"
    yield from (f"a label of nothing: {name}" for name in named if name not in ids)
    for element in page.all("a", "button"):
        if not text_of(element) and not element.get("aria-label"):
            yield f"a link without a text: {element.attrib}"
    for element in page.all("svg"):
        if not {"aria-label", "aria-labelledby", "aria-hidden"} & set(element.attrib):
            yield "a picture without a text"


def table_faults(page):
    """Each table has a caption, heads with a scope, and roles in all its parts or in none."""
    for table in page.all("table"):
        inner = [element for element in table.iter() if name_of(element)]
        if not any(name_of(element) == "caption" for element in inner):
            yield "a table without a caption"
        yield from ("a head without a scope" for element in inner
                    if name_of(element) == "th" and not element.get("scope"))
        if table.get("role"):
            yield from (f"a {name_of(element)} without its role" for element in inner if name_of(element) in ROLES
                        and element.get("role") not in (ROLES[name_of(element)], "rowheader"))
        elif "counts" not in (table.get("class") or "").split():
            yield "a table without roles, whose rows become lists on a narrow screen"


def landmark_faults(page):
    """What a reader of the whole page needs: its language, its title, its landmarks, and an order of fields."""
    if page.root.get("lang") != "en":
        yield "no language"
    if not page.title:
        yield "no title"
    if len(page.all("main")) != 1:
        yield "no main part, or several"
    labels = [element.get("aria-label") for element in page.all("nav")]
    if None in labels:
        yield "a nav without a label"
    yield from ("a tab order of its own" for element in page.elements if int(element.get("tabindex") or 0) > 0)
    if not any(element.get("rel") == "icon" for element in page.all("link")):
        yield "no icon: browsers ask for /favicon.ico"


def faults_of(path):
    """All faults of a page."""
    page = Page(path)
    return [*page.errors, *heading_faults(page), *label_faults(page), *table_faults(page), *landmark_faults(page)]
