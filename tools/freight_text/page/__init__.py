"""A timetable as one page of HTML. docs/page.md is its guide.

What it shows is read by `inputs`, with sentences on faults from `faults`. Names, times and amounts are put in words by
`displays` and `clocks`; the chart is drawn by `pictures`; tables and sheets are written by the other modules, and put together
by `pages`, with page.css and page.js.
"""
