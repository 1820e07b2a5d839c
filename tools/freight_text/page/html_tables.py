"""Tables of HTML: a caption, a head that is repeated on each sheet, and rows that begin with a heading of their own."""

from html import escape


class Markup(str):
    """A text that is HTML already."""


def html(value):
    return value if isinstance(value, Markup) else escape(str(value))


# What a head begins with: # is of numbers and times, * of texts that may be long.
LOOKS = {"#": ' class="n"', "*": ' class="long"'}


def unbroken(text):
    """A short text that stays on one line. One of four words, as a time with a date, may break before the last."""
    *words, last = text.split(" ")
    return "\u00a0".join(words) + " " + last if len(words) == 3 else "\u00a0".join([*words, last])


def cell(kind, head, value, more=""):
    """A cell under a head."""
    text = unbroken(html(value)) if head[0] == "#" and not isinstance(value, Markup) else html(value)
    return f"<{kind}{LOOKS.get(head[0], '')}{more}>{text}</{kind}>"


def row_html(heads, values, attributes=""):
    first = cell("th", heads[0], values[0], ' scope="row"')
    rest = (cell("td", head, it) for head, it in zip(heads[1:], values[1:]))
    return f"<tr{attributes}>{first}{''.join(rest)}</tr>"


def table(caption, heads, rows, attributes=()):
    """A table in a box that scrolls. Each row is its values, each with a line of attributes where there are some."""
    head = "".join(cell("th", it, it.lstrip("#*"), ' scope="col"') for it in heads)
    lines = (row_html(heads, it, attributes[place] if attributes else "") for place, it in enumerate(rows))
    return (
        f'<div class="rows"><table><caption>{html(caption)}</caption>'
        f"<thead><tr>{head}</tr></thead><tbody>{''.join(lines)}</tbody></table></div>"
    )


def link(place, text):
    """A link to a part of the page."""
    return Markup(f'<a href="#{place}">{escape(text)}</a>')
