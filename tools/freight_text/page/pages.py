"""A timetable as one page of HTML: what is claimed, the picture in time and space, tables, and sheets of terminals and trucks."""

from html import escape
from pathlib import Path

from .clocks import date_words
from .filters import filter_form
from .marks import Marks
from .pictures import Picture
from .tables import cost_table, departure_table, shipment_table
from .terminal_sheets import TerminalSheets, counted
from .truck_sheets import TruckSheets
from .verdicts import certificate_words, cost_words, verdict

# With more shipments than these the page opens by terminal, and its picture shows what is chosen alone.
MOST_IN_ONE_PICTURE = 150
FOLDER = Path(__file__).resolve().parent
# A picture at least so much wider than high is printed on a sheet that is wider than high.
WIDE = 1.75

LEGEND = (
    "Time runs from left to right, and a line is a departure from terminal to terminal: wider with more trucks, labelled with its load of its"
    ' capacity where there is room. Its trucks are <b class="low">used below half</b> (dashed), <b class="half">from half on</b>,'
    ' <b class="full">from 90 % on</b>. Terminals that many trucks join stand near each other.'
)
KEYS = (
    " In a table the arrow keys go from row to row: the row in focus shows its shipments' ways in the chart. Enter or a click keeps them,"
    " Escape lets them go."
)
CHOSEN = " This day has many shipments: the chart shows what is chosen above, and the row in focus."


def infeasible_words(timetable):
    name = timetable.answer[2]
    if timetable.answer[1] == "stuck":
        duty = timetable.told.duty_words() if timetable.told.day.is_underway() else "keeps the legs that stand"
        return f"No timetable {duty}: shipment {name} can't go on from its legs in time."
    return f"No plan exists: shipment {name} can't be carried in time."


def fact_words(timetable, display):
    """The figures of a plan in a sentence or two."""
    trucks, money, flow = timetable.costs()
    shipments = counted(len(timetable.instance.shipments), "shipment", "shipments")
    legs, lines = counted(len(timetable.legs), "leg", "legs"), counted(len(timetable.departures), "departure", "departures")
    words = (
        f"Trucks {display.money.words(money)}, flow {display.money.words(flow)}. {shipments}, {legs}, {lines}, "
        f"{counted(trucks, 'truck', 'trucks')} (one for each leg alone: {timetable.trucks_alone():,})."
    )
    return f"{words} Sizes are in {display.sizes.word}." if display.sizes.word else words


def clock_words(display):
    zero = display.clock.zero
    if zero is None:
        return ""
    return f"The first day is {date_words(zero)}; times of later days have their day." if display.clock.dated else "A time with +1 is one of the day after."


def day_words(day, display):
    """What isn't shown of a day that is under way."""
    if not day.is_underway():
        return ""
    present = "" if day.now is None else f"It is {display.clock.time(day.now)}. "
    return f"{present}This is what is left of the day: what has left isn't shown, nor what it costs."


def header(timetable, checked, display):
    duty = timetable.told.duty_words()
    look, words = verdict(checked, duty)
    planned = timetable.answer[1] not in ("infeasible", "stuck")
    claim = cost_words(timetable.answer, checked, duty, display.money) if planned else infeasible_words(timetable)
    facts = [day_words(timetable.told.day, display), fact_words(timetable, display), clock_words(display)] if planned else []
    note = f'<p class="note">{escape(" ".join(filter(None, facts)))}</p>' if planned else ""
    behind = "" if look == "no" else certificate_words(timetable)
    return (
        f'<header><h1>Timetable</h1><p class="claim">{escape(claim)}</p><p class="verdict {look}">{escape(f"{words} {behind}".strip())}</p>'
        f"{note}</header>"
    )


def legend(many):
    return f'<section class="legend"><h2>Time and space</h2><p class="note">{LEGEND}<span class="keys">{KEYS}{CHOSEN if many else ""}</span></p></section>'


def chart(timetable, picture, many):
    """The picture, in a part that can be closed; closed where there are many shipments."""
    label = f"Chart of {counted(len(timetable.departures), 'departure', 'departures')}; the table of departures says the same in words"
    look = 'class="drawn many"' if many else 'class="drawn" open'
    return f"<details {look}><summary>Chart</summary>{picture.html(label)}</details>"


def parts(inputs, display, marks, many):
    """Each part of the page: its id, its heading and its content."""
    timetable = inputs.timetable
    whole = [
        ("shipments", "Shipments", shipment_table(timetable, display, marks)),
        ("departures", "Departures", departure_table(timetable, display, marks)),
        ("costs", "Cost by arc", cost_table(timetable, display)),
    ]
    sheets = [("terminals", "Terminals", TerminalSheets(timetable, display, marks).html())]
    if inputs.trucks:
        sheets.append(("trucks", "Trucks", TruckSheets(inputs.trucks, timetable, display, marks).html()))
    return sheets + whole if many else whole + sheets


def body(inputs):
    """What stands on the page, with the look of its first sheet: wide or tall."""
    timetable, display = inputs.timetable, inputs.display
    top = header(timetable, inputs.checked, display)
    if not timetable.legs:
        return "tall", top
    marks = Marks(timetable)
    picture, many = Picture(timetable, display, marks), len(timetable.instance.shipments) > MOST_IN_ONE_PICTURE
    content = parts(inputs, display, marks, many)
    headings = [(place, heading) for place, heading, _ in content]
    links = "".join(f'<li><a href="#{place}">{heading}</a></li>' for place, heading in headings)
    nav = f'<nav aria-label="Parts of the page"><ul>{links}</ul></nav>'
    sections = "".join(f'<section class="part" id="{place}"><h2>{heading}</h2>{it}</section>' for place, heading, it in content)
    tools = filter_form(timetable, display, marks, headings) + chart(timetable, picture, many)
    html = f'{top}{nav}{legend(many)}<div class="tools">{tools}</div><main>{sections}</main>'
    return "wide" if picture.shape >= WIDE and not many else "tall", html


def whole_page(inputs):
    """The whole page, with its style and its script in it."""
    look, content = body(inputs)
    style, script = ((FOLDER / name).read_text(encoding="utf-8") for name in ("page.css", "page.js"))
    return (
        '<!doctype html>\n<html lang="en"><head><meta charset="utf-8"><meta name="viewport" content="width=device-width,initial-scale=1">'
        f'<title>Timetable</title><style>{style}</style></head>\n<body class="{look}">{content}<script>{script}</script></body></html>\n'
    )
