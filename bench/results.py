"""The rows of bench/results.tsv, which bench/run adds."""
import csv
import pathlib

TOP = pathlib.Path(__file__).resolve().parent.parent
RESULTS = TOP / "bench/results.tsv"


def latest():
    """The last row of each line and size, as a dictionary by the names of the columns; in the order of the file."""
    with open(RESULTS, encoding="utf-8", newline="") as file:
        rows = list(csv.DictReader(file, delimiter="\t", quoting=csv.QUOTE_NONE))
    last = {(row["part"], row["line"], row["size"]): place for place, row in enumerate(rows)}
    return [rows[place] for place in sorted(last.values())]
