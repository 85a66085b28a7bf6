"""The pictures of PERFORMANCE, each made from one results file."""
from . import results
from .axes import Frame, heading, legend
from .canvas import Canvas

OF_PROGRAM = {"hwal": 0, "RocksDB": 1, "LevelDB": 2, "C++ shape": 3}
OF_PART = {"script read": 4, "entry made and put into the ring": 0, "turn at the device": 5, "edit ended and shown": 6, "report": 2, "helper threads": 7}
OF_COMPACTION = {"hwal: compact major": 0, "hwal: recover": 4, "former: compact major": 3, "RocksDB: CompactRange": 1}


def puts():
    """Bars by handlers and program up to the median, with a line from the least to the best round."""
    rows = results.read("puts.csv")
    canvas = Canvas(760, 420, "Synced puts a second, by handlers")
    note = f"The writers alone, one cell a put, four regions, ext4 on a virtual disk, four processors. Commit {results.commit_of(rows)}."
    heading(canvas, "Synced puts a second, by handlers", [note, "Bars and figures: median of 15 rounds. Lines: from the least to the best round."])
    top = legend(canvas, 90, [(OF_PROGRAM[name], name) for name in results.column(rows, "program")])
    groups = results.column(rows, "handlers")
    frame = Frame(canvas, 80, top + 12, 740, 360, len(groups), 60_000)
    frame.y_axis(range(0, 60_001, 10_000), "puts a second")
    for at, handlers in enumerate(groups):
        of = [row for row in rows if row["handlers"] == handlers]
        for place, row in enumerate(of):
            x = frame.x(at + 0.5) + (place - len(of) / 2) * 46
            one_bar(frame, x + 3, 40, row)
        canvas.text(frame.x(at + 0.5), frame.bottom + 18, "1 handler" if handlers == "1" else f"{handlers} handlers", "middle")
    frame.x_title("handlers, each in a thread of its own")
    return canvas


def one_bar(frame, x, wide, row):
    canvas, median = frame.canvas, int(row["median"])
    canvas.rectangle(x, frame.y(median), wide, frame.y(0) - frame.y(median), f"f{OF_PROGRAM[row['program']]}")
    middle, ends = x + wide / 2, [frame.y(int(row["least"])), frame.y(int(row["best"]))]
    canvas.line([(middle, ends[0]), (middle, ends[1])], "mark", 1.5)
    for end in ends:
        canvas.line([(middle - 5, end), (middle + 5, end)], "mark", 1.5)
    canvas.text(middle, ends[1] - 6, f"{median:,}", "middle", size=11)


def put_instructions():
    """Horizontal bars: by part for each number of puts, and whole for each peer."""
    rows = results.read("put-instructions.csv")
    canvas = Canvas(760, 400, "User instructions a put, by part")
    note = ["One handler, one cell a put, sync, four regions, a folder in memory; counted by callgrind.",
            f"The peers read no script and print no report. Commit {results.commit_of(rows)}."]
    heading(canvas, "User instructions a put, by part", note)
    top = legend(canvas, 90, [(series, part) for part, series in OF_PART.items()] + [(3, "a peer, whole")])
    frame = Frame(canvas, 190, top + 8, 715, 350, 32_000, 1)
    frame.x_axis(range(0, 32_001, 4_000), "user instructions a put")
    bars = list(dict.fromkeys((row["program"], row["puts"]) for row in rows))
    each = (frame.bottom - frame.top) / len(bars)
    for at, (program, count) in enumerate(bars):
        y, sum_so_far = frame.top + each * at, 0
        for row in (row for row in rows if (row["program"], row["puts"]) == (program, count)):
            part = int(row["instructions"])
            canvas.rectangle(frame.x(sum_so_far), y + 6, frame.x(part) - frame.left, each - 12, f"f{OF_PART.get(row['part'], 3)}")
            sum_so_far += part
        canvas.text(frame.left - 8, y + each / 2 + 4, f"{program}, {int(count):,} puts", "end")
        canvas.text(frame.x(sum_so_far) + 6, y + each / 2 + 4, f"{sum_so_far:,}", "start", size=11)
    return canvas


def compactions():
    """Two fields: processor time and memory by the cells of the region."""
    rows = results.read("compactions.csv")
    canvas = Canvas(760, 420, "Opening and compaction, by cells")
    note = f"One region in 8 stores, best of three rounds, a folder in memory. Commit {results.commit_of(rows)}."
    heading(canvas, "Opening and compaction, by cells", [note, "hwal's compaction opens the store first, which is the line recover; RocksDB's opens nothing."])
    top = legend(canvas, 90, [(series, what) for what, series in OF_COMPACTION.items()])
    time = Frame(canvas, 80, top + 12, 370, 360, 1_100_000, 2.0)
    time.y_axis([0, 0.5, 1, 1.5, 2], "user and system time (seconds)", "{:.1f}")
    memory = Frame(canvas, 460, top + 12, 740, 360, 1_100_000, 500)
    memory.y_axis(range(0, 501, 100), "most memory (MiB)")
    for frame, column in ((time, "seconds"), (memory, "mebibytes")):
        frame.x_axis([0, 250_000, 500_000, 750_000, 1_000_000], "cells of the region", grid=False)
        for what, series in OF_COMPACTION.items():
            points = [(frame.x(int(row["cells"])), frame.y(float(row[column]))) for row in rows if row["what"] == what and row[column]]
            canvas.line(points, f"l{series}", 2, "6 4" if what.startswith("former") else "")
            for point in points:
                canvas.dot(*point, f"f{series}")
    return canvas


# Each picture: the file in docs/, how it is drawn, its results file, and the columns whose figures PERFORMANCE has.
PICTURES = [
    ("puts.svg", puts, "puts.csv", ("best", "median", "least")),
    ("put-instructions.svg", put_instructions, "put-instructions.csv", ("instructions",)),
    ("compactions.svg", compactions, "compactions.csv", ("seconds", "mebibytes")),
]
