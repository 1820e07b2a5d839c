"""`export`: an answer of the program as tables or JSON, in the carrier's names, dates and units."""

from freight_text.file_faults import of_file
from freight_text.fleets import trucks_of
from freight_text.names_files import names_in
from freight_text.records import records_of

from . import answer_json, faults, whole_files
from .answer_files import answer_in, instance_in
from .cell_forms import JsonForm, TextForm, WorkbookForm, json_text
from .export_words import VIEWS, options_of
from .timetable_rows import Rows

FORMS = {"csv": TextForm, "json": JsonForm, "xlsx": WorkbookForm}


def rows_of(options):
    """The answer of some files, ready to be written in the form of the words."""
    text = whole_files.read(options.names)
    names = of_file(options.names, lambda: names_in(text))
    instance = instance_in(whole_files.read(options.instance), options.instance, names) if options.instance else None
    answer = answer_in(whole_files.read(options.answer), options.answer, names, instance)
    trucks = None
    if options.fleet and answer.has_timetable():
        records = records_of(whole_files.read(options.fleet))
        trucks = of_file(options.fleet, lambda: trucks_of(records, answer.departures))
    return Rows(answer, names, FORMS[options.form](names), trucks)


def content(options, rows):
    """The bytes of what the words ask for."""
    if options.form == "json" and not options.view:
        return json_text(answer_json.whole(rows.answer, rows))
    if not rows.answer.has_timetable():
        raise faults.Refusal(f"{options.answer} has no timetable: its answer is {rows.answer.kind}; --to json without --by tells it")
    views = [options.view] if options.view else VIEWS
    return rows.form.file([(f"by {view}", *rows.table(view)) for view in views])


def run(options):
    data = content(options, rows_of(options))
    if options.output:
        whole_files.write([(options.output, data)])
    else:
        whole_files.to_output(data)
    return faults.DONE


def main(arguments):
    """Runs the command; what it says of words and files is one sentence."""
    return faults.status_of("export", lambda: run(options_of(arguments)))
