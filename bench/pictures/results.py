"""Results files: tables of comma-separated values after lines of comment, each row with the commit that it was measured of."""
import csv
import os

FOLDER = os.path.join(os.path.dirname(os.path.dirname(os.path.abspath(__file__))), "results")


def read(name):
    """The rows of a results file, each as a dictionary of texts."""
    with open(os.path.join(FOLDER, name), encoding="utf-8", newline="") as file:
        return list(csv.DictReader(line for line in file if not line.startswith("#")))


def column(rows, name):
    """The values of one column, each once, in the order in which they come."""
    return list(dict.fromkeys(row[name] for row in rows))


def commit_of(rows):
    """The commit of all rows; a picture is of one."""
    commits = column(rows, "commit")
    if len(commits) != 1:
        raise ValueError(f"rows of several commits: {', '.join(commits)}")
    return commits[0]


def figures(rows, names):
    """The figures of these columns as PERFORMANCE writes them: 12,345 or 0.39."""
    for row in rows:
        for name in names:
            if row[name]:
                yield row[name] if "." in row[name] else f"{int(row[name]):,}"
