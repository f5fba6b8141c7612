"""Records as CSV (docs/FORMATS.md, Facts as CSV)."""
from record_layout import MOST_RECORDS, RANGES, Record
from source import Faulty, Place, fault, lines_of, number, shown

HEADER = ",".join(Record._fields)
BLANKS = " \t"
# What other programs put between fields where we have commas.
OTHER_SEPARATORS = {";": "semicolons", "\t": "tabs", "|": "vertical bars"}


def fields_of(line, text):
    """The fields of a line with their places: without the blanks around them, and without quotes."""
    fields, start = [], 0
    for part in text.split(","):
        word = part.strip(BLANKS)
        column = start + (part.index(word) if word else 0) + 1
        if len(word) >= 2 and word[0] == word[-1] == '"':
            word = word[1:-1].strip(BLANKS)
        fields.append((Place(line, column), word))
        start += len(part) + 1
    return fields


def check_header(fields, text):
    words = [word for _, word in fields]
    if words == list(Record._fields):
        return
    differs = [place for (place, word), name in zip(fields, Record._fields) if word != name]
    text = text.strip(BLANKS)
    message = f"the first line has to be {HEADER}, and is {shown(text)}"
    others = [plural for separator, plural in OTHER_SEPARATORS.items() if separator in text]
    if others and "," not in text:
        message += f": its fields are separated by {others[0]}, not commas"
    raise fault((differs or [fields[-1][0]])[0], message)


def record_of(fields):
    """The record in the fields of a line, or all their faults."""
    count = len(Record._fields)
    if len(fields) != count:
        place = fields[min(len(fields) - 1, count)][0]
        raise fault(place, f"{len(fields)} fields, and not {count}: {HEADER}")
    values, faults = [], []
    for name, (place, word) in zip(Record._fields, fields):
        if name == "trust" and word in ("", "?"):
            values.append(None)
            continue
        try:
            if word == "":
                raise fault(place, f"no {name}")
            values.append(number(place, name, word, RANGES[name]))
        except Faulty as faulty:
            faults += faulty.faults
    if faults:
        raise Faulty(*faults)
    return Record(*values)


def read_csv(data):
    """The records of a CSV, rising."""
    records, faults, has_header = {}, [], False
    for line, text in lines_of(data):
        if text.strip(BLANKS) == "" or text.lstrip(BLANKS).startswith("#"):
            continue
        fields = fields_of(line, text)
        if not has_header:
            check_header(fields, text)
            has_header = True
            continue
        try:
            record = record_of(fields)
            start = fields[0][0]
            if record.key in records:
                first = records[record.key][0]
                raise fault(start, f"the record {','.join(map(str, record.key))} stands in line {first} already")
            if len(records) == MOST_RECORDS:
                raise fault(start, f"more than {MOST_RECORDS} records")
            records[record.key] = line, record
        except Faulty as faulty:
            faults += faulty.faults
    if not has_header:
        raise fault(Place(line, 1), f"the first line has to be {HEADER}, and there is none")
    if faults:
        raise Faulty(*faults)
    return [records[key][1] for key in sorted(records)]


def write_csv(records):
    rows = [",".join("?" if value is None else str(value) for value in record) for record in records]
    return "".join(line + "\n" for line in [HEADER, *rows])
