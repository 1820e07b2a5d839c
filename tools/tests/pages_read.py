"""A page of a timetable, read back: its headings, tables, controls and ids."""

from html.parser import HTMLParser


class Table:
    """A table's caption, its heads, and its rows, each as the texts of its cells."""

    def __init__(self):
        self.caption, self.heads, self.rows = "", [], []


class Page(HTMLParser):
    """What stands on a page.

    `headings` are pairs of a level and a text, `tables` the tables in their order, `ids` all ids, `targets` the ids to which
    links lead, `controls` the names of the controls that stand in a label, and `unlabelled` those of the others.
    """

    def __init__(self, text):
        super().__init__()
        self.headings, self.tables, self.ids, self.targets, self.controls, self.unlabelled, self.language = [], [], [], [], [], [], None
        self.open = []
        self.feed(text)

    def handle_starttag(self, tag, attributes):
        given = dict(attributes)
        self.ids += [given["id"]] if "id" in given else []
        self.targets += [given["href"][1:]] if given.get("href", "").startswith("#") else []
        if tag == "select":
            (self.controls if "label" in self.open else self.unlabelled).append(given["name"])
        self.begin(tag, given)
        if tag not in ("meta", "path", "polyline", "br"):
            self.open.append(tag)

    def begin(self, tag, given):
        if tag == "html":
            self.language = given.get("lang")
        elif tag in ("h1", "h2", "h3"):
            self.headings.append([int(tag[1]), ""])
        elif tag == "table":
            self.tables.append(Table())
        elif tag == "tr" and "tbody" in self.open:
            self.tables[-1].rows.append([])
        elif tag in ("th", "td") and "thead" in self.open:
            self.tables[-1].heads.append("")
        elif tag in ("th", "td"):
            self.tables[-1].rows[-1].append("")

    def handle_endtag(self, tag):
        if tag in self.open:
            while self.open.pop() != tag:
                pass

    def handle_data(self, data):
        data = data.replace("\u00a0", " ")
        if "caption" in self.open:
            self.tables[-1].caption += data
        elif "thead" in self.open and "th" in self.open:
            self.tables[-1].heads[-1] += data
        elif "tbody" in self.open and {"th", "td"} & set(self.open):
            self.tables[-1].rows[-1][-1] += data
        elif {"h1", "h2", "h3"} & set(self.open):
            self.headings[-1][1] += data

    def rows(self, caption):
        """The rows of the one table with this caption, or whose caption begins so."""
        found = [it for it in self.tables if it.caption == caption] or [it for it in self.tables if it.caption.startswith(caption)]
        assert len(found) == 1, f"{len(found)} tables begin with {caption}"
        return found[0].rows

    def sheets(self, caption):
        """The tables whose captions begin so, by what comes after."""
        return {it.caption[len(caption) :]: it.rows for it in self.tables if it.caption.startswith(caption)}
