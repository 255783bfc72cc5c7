"""Tables of roads and of records, as CSV text in UTF-8. A blank line is passed over."""
from __future__ import annotations

import csv
import os
from typing import Callable, Iterator, List, Optional, Sequence, Tuple, TypeVar, Union

from .errors import NetworkError, naming
from .rows import Rows, check_fields

RECORD_HEADER = ["from", "to", "column", "time", "stamp"]

File = Union[str, "os.PathLike[str]"]
Row = TypeVar("Row")


def read_roads(file: File) -> Rows:
    """The roads of a file: a line `from,to` and the names of the columns, then a line for each road."""
    path = os.fspath(file)
    rows = None
    for line, fields in read_lines(path):
        with naming(f"{path}, line {line}"):
            if rows is not None:
                rows.add(f"line {line}", [*fields[:2], *map(time_of, fields[2:])])
            elif fields[:2] != ["from", "to"] or len(fields) < 3:
                raise NetworkError("the first line must be from,to and the names of the columns")
            else:
                rows = Rows(fields[2:])
    if rows is None:
        raise NetworkError(f"{path} is empty")
    if not rows.times:
        raise NetworkError(f"{path} has no road")
    return rows


def read_records(file: File, take: Callable[[Sequence[object]], Row]) -> List[Row]:
    """What `take` makes of each record of a file: a line `from,to,column,time,stamp`, then the records."""

    def record(fields: Sequence[str]) -> Row:
        *names, time, stamp = fields
        return take([*names, time_of(time), number_of(stamp)])

    return read_table(file, RECORD_HEADER, record)


def read_table(file: File, header: Sequence[str], take: Callable[[Sequence[str]], Row]) -> List[Row]:
    """What `take` makes of each line of a file behind the first, which must be this header."""
    path = os.fspath(file)
    rows: Optional[List[Row]] = None
    for line, fields in read_lines(path):
        with naming(f"{path}, line {line}"):
            if rows is None and fields != header:
                raise NetworkError(f"the first line must be {','.join(header)}")
            if rows is None:
                rows = []
            else:
                check_fields(fields, len(header))
                rows.append(take(fields))
    if rows is None:
        raise NetworkError(f"{path} is empty")
    return rows


def read_lines(path: str) -> Iterator[Tuple[int, List[str]]]:
    """The lines of a CSV file that are not blank, each with its number."""
    try:
        with open(path, newline="", encoding="utf-8-sig") as file:
            reader = csv.reader(file, skipinitialspace=True, strict=True)
            try:
                for row in reader:
                    fields = [field.strip() for field in row]
                    if fields not in ([], [""]):
                        yield reader.line_num, fields
            except csv.Error as error:
                raise NetworkError(f"{path}, line {reader.line_num}: {error}") from None
    except OSError as error:
        raise NetworkError(f"{path}: {error.strerror}") from None
    except UnicodeDecodeError:
        raise NetworkError(f"{path} is no text in UTF-8") from None


def time_of(text: str) -> Union[int, str, None]:
    """The time that a field has, or None if it says by `-` or nothing that the road is closed."""
    return None if text in ("", "-") else number_of(text)


def number_of(text: str) -> Union[int, str]:
    """The whole number that a field has, or the text itself if it is none.

    Of a number with more than 20 digits the first 20 are taken, which are above every range too: Python
    refuses to convert some thousands of digits.
    """
    sign, digits = ("-", text[1:]) if text.startswith("-") else ("", text)
    if not (digits.isascii() and digits.isdigit()):
        return text
    return int(sign + (digits.lstrip("0")[:20] or "0"))
