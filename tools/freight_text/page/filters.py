"""The form that chooses what of a page is shown, and so what is printed: plain controls, each with its label."""

from html import escape


def choice(key, label, options):
    """A select control: `key` is its name, the options are values with their texts."""
    lines = "".join(f'<option value="{escape(str(value))}">{escape(text)}</option>' for value, text in options)
    return f'<label>{label} <select name="{key}"><option value="">all</option>{lines}</select></label>'


def filter_form(timetable, display, marks, parts):
    """The form. `parts` are the ids of the page's parts with their headings. It's of use with the script alone, which shows it."""
    terminals = sorted(((marks.terminals[it], display.terminal(it)) for it in timetable.used_terminals()), key=lambda it: it[1])
    shipments = [(place, display.shipment(name)) for name, place in marks.shipments.items()]
    lines = sorted(((place, display.line(it)) for place, it in enumerate(timetable.departures)), key=lambda it: it[1].rpartition(" → ")[0])
    choices = (
        choice("part", "Part", [("chart", "Chart"), *parts]), choice("t", "Terminal", terminals),
        choice("s", "Shipment", shipments), choice("l", "Truck line", lines),
    )  # fmt: skip
    return (
        f'<form class="filter" autocomplete="off" aria-label="What is shown and printed" hidden>{"".join(choices)}'
        '<button type="reset">Show all</button><p class="state" role="status"></p></form>'
    )
