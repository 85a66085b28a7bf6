"""The causes that hwal says on standard error, one row a cause. tools/causes runs them; tools/tests looks that none is missing.

A row has words, what lies in the working directory, a script, the status, and the lines on standard error: WHERE stands for the
whole path of the working directory. The lines that begin with the call that failed are the folder's and the streams' own.
"""
import os
import sys
from dataclasses import dataclass, field

sys.path.insert(0, os.path.dirname(os.path.abspath(__file__)))
from store_files import cells, logs

HEAD = b"time 1000\nregions 2\nhandlers 2\n"
ONE = b"time 1000\nregions 1\nhandlers 1\nput 1 1 sync 1\ncell r f q 1 put v\n"
PUT = HEAD + b"put 1 1 sync 2\n"
CELL = PUT + b"cell r f q 1 put v\n"
LAST = 2**48 - 1
EMPTY = "hwal: there was no folder WHERE/hwal-store: it reads as an empty store"
NEXT = "; nothing was written"
DAMAGED = "; nothing was changed, skipped or repaired: restore the folder from a copy (tools/hwal-stat lists each damaged file)"
NO_COMMAND = "hwal: these words name no command; usage: hwal "


def entry(region, number, value=b"v"):
    return logs.Entry(region, number, 1000, b"", (cells.Cell(b"r", b"f", b"q", 5, cells.PUT, value),))


def log_of(number, *entries):
    return logs.log_bytes(entries, number)


@dataclass
class Row:
    cause: str
    words: str
    status: int
    lines: tuple
    script: bytes = b""
    # what lies in the directory, bytes for a file and None for a folder
    lies: dict = field(default_factory=dict)
    # how its streams, memory or rights are: script_is_a_folder, output_is_full, little_memory, no_rights
    how: str = ""
    program: str = "hwal"


def line(number, text):
    return (f"hwal: line {number} of the script: {text}{NEXT}",)


USAGES = {
    "": "log, run, show, recover, dump NUMBER, ship FILE ENTRIES, compact minor REGION, compact major REGION, or load --start N --handlers H --regions R --count C; log and run read a script from standard input",
    "recovr": "log, run, show, recover, dump NUMBER, ship FILE ENTRIES, compact minor REGION, compact major REGION, or load --start N --handlers H --regions R --count C; log and run read a script from standard input",
    "log x": "log < SCRIPT, with no other word",
    "run x": "run < SCRIPT, with no other word",
    "show x": "show, with no other word",
    "recover x": "recover, with no other word",
    "dump x": "dump NUMBER, with NUMBER from 0 to 18446744073709551615",
    "ship 0 0": "ship FILE ENTRIES, with FILE from 1 to 9223372036854775808 and ENTRIES from 0 to 9223372036854775807; ship 1 0 begins with log-1",
    "compact minor 65": "compact minor REGION or hwal compact major REGION, with REGION from 1 to 64",
    "load --start 1": "load --start N --handlers H --regions R --count C, with N below 2^64, H from 1 to 16, R from 1 to 64, C from 1 to 10000",
}
GROUPS_USAGE = "hwal: these words name no command; usage: hwal_groups N < SCRIPT, with N from 1 to 4; ./hwal groups N calls it"
USAGE = [Row("usage", words, 2, (NO_COMMAND + text,)) for words, text in USAGES.items()]
USAGE += [Row("usage", "groups 2", 2, (GROUPS_USAGE,)), Row("usage", "5", 2, (GROUPS_USAGE,), program="hwal_groups")]

WORD = "the line begins with no word of a script, stands at the wrong place, or has too many or too few words: time, regions, handlers come first, words are parted by spaces and not by tabs, and a put is sync or async"
NUMBER = "a number is 1 to 20 digits and nothing else (no sign, no carriage return at the end of the line); regions goes from 1 to 64, handlers from 1 to 16"
TOKEN = "a token is bytes from ! to ~, and %XX with two hexadecimal digits for any other one: %25 is a %, %20 a space, %09 a tab; is there a tab, or a carriage return at the end of the line?"
COUNT = "exactly COUNT cell lines, 1 to 1,024, follow a put, each beginning with cell and a space and not a tab, and none stands elsewhere; VERSIONS of a get is 1 to 1,000,000"
TOO_LONG = "a line has at most 524,288 bytes, and a script at most 16,777,216"
NOT_IN_LOG = "log takes one region, one handler, puts with sync, and cells of kind put without a seventh word, which would be tags; run takes this line"
TAGS = "the seventh word of a cell line is its TAGS, of at most 4,096 bytes: is it meant to be of VALUE, whose spaces are written %20?"
SCRIPTS = [
    ("word", HEAD + b"merge 1 1\n", line(4, WORD)),
    ("word", b"regions 1\n", line(1, WORD)),
    ("word", CELL + b"cell r f q 1 put hello world again\n", line(6, WORD)),
    ("number", b"time 1000\r\n", line(1, NUMBER)),
    ("number", HEAD + b"roll +1\n", line(4, NUMBER)),
    ("token", HEAD + b"scan 1 1 a%4 -\n", line(4, TOKEN)),
    ("token", CELL + b"cell r f q 1 put v\r\n", line(6, TOKEN)),
    ("region", HEAD + b"flush 1 3\n", line(4, "there is no such region: they have the numbers from 1 to that of the line regions")),
    ("handler", HEAD + b"roll 3\n", line(4, "there is no such handler: they have the numbers from 1 to that of the line handlers")),
    ("count", HEAD + b"put 1 1 sync 1025\n", line(4, COUNT)),
    ("count", PUT + b"\tcell r f q 1 put v\n", line(5, COUNT)),
    ("too-long", b"#" * 524289 + b"\n", line(1, TOO_LONG)),
    ("too-long", b"#\n" * (2**23 + 1), (f"hwal: the script is too long: {TOO_LONG}{NEXT}",)),
    ("cell-1", CELL + b"cell - f q 1 put v\n", line(6, "ROW has 1 to 32,767 bytes, and - is none")),
    ("cell-2", CELL + b"cell r - q 1 put v\n", line(6, "FAMILY has 1 to 127 bytes, and - is none")),
    ("cell-3", CELL + b"cell r f " + b"q" * 32768 + b" 1 put v\n", line(6, "QUALIFIER has at most 32,767 bytes")),
    ("cell-4", CELL + b"cell r f q 1 put " + b"v" * 65537 + b"\n", line(6, "VALUE has at most 65,536 bytes")),
    ("cell-5", CELL + b"cell r f q 9223372036854775808 put v\n", line(6, "TS is now, or a number below 9223372036854775808")),
    ("cell-6", CELL + b"cell r f q 1 merge v\n", line(6, "KIND is put, delete, delete-family-version, delete-column or delete-family")),
    ("cell-7", CELL + b"cell r f q 1 put hello " + b"w" * 4097 + b"\n", line(6, TAGS)),
    ("table-length", HEAD + b"table -\n", line(4, "NAME of a table has 1 to 255 bytes, and - is none")),
    ("entry-length", HEAD + b"put 1 1 sync 17\n" + (b"cell r f q 1 put " + b"v" * 65536 + b"\n") * 17, line(20, "with this cell the put is longer than an entry of the log, 1,048,576 bytes: make two puts of it")),
]
SCRIPT = [Row(cause, "run", 3, lines, script) for cause, script, lines in SCRIPTS]
SCRIPT += [
    Row("not-here", "log", 3, line(4, NOT_IN_LOG), b"time 1000\nregions 1\nhandlers 1\nscan 1 1 - -\n"),
    Row("not-here", "log", 3, line(5, NOT_IN_LOG), b"time 1000\nregions 1\nhandlers 1\nput 1 1 sync 1\ncell r f q 1 put hello world\n"),
    Row("not-here", "2", 3, line(4, "groups takes no get"), HEAD + b"get 1 1 r 1\n", program="hwal_groups"),
    Row("region", "2", 3, line(4, "there is no such region: they have the numbers from 1 to that of the line regions"), HEAD + b"flush 1 3\n", program="hwal_groups"),
]

# ---- the streams

IS_A_FOLDER = ("hwal: read standard input: Is a directory (os error 21)", "hwal: the script could not be read from standard input; nothing was written")
IS_FULL = "hwal: write standard output: No space left on device (os error 28)"
NOT_WHOLE = "hwal: the output is not whole; "
RECOVER_TELLS = "the store has been opened all the same: recover prints how far each region goes"
RUN_TELLS = "hwal: the report is not whole; the script has been run all the same: recover tells how far each region goes"
STORE = {"hwal-store": None}
STREAMS = [
    Row("source", "run", 4, IS_A_FOLDER, how="script_is_a_folder"),
    Row("source", "log", 4, IS_A_FOLDER, how="script_is_a_folder"),
    Row("source", "1", 4, IS_A_FOLDER, how="script_is_a_folder", program="hwal_groups"),
    Row("sink", "log", 6, (IS_FULL, NOT_WHOLE + "the log was written all the same: show prints what it has"), ONE, how="output_is_full"),
    Row("sink", "show", 6, (IS_FULL, NOT_WHOLE + "nothing was written to the store"), lies=STORE, how="output_is_full"),
    Row("sink", "recover", 6, (IS_FULL, NOT_WHOLE + RECOVER_TELLS), lies=STORE, how="output_is_full"),
    Row("sink", "run", 6, (IS_FULL, RUN_TELLS), ONE, STORE, how="output_is_full"),
    Row("sink", "load --start 0 --handlers 1 --regions 1 --count 1", 6, (IS_FULL, NOT_WHOLE + "the load is in the folder all the same: remove it before the next one"), how="output_is_full"),
    Row("sink", "1", 6, (IS_FULL, RUN_TELLS), ONE, {"hwal-store-1": None}, "output_is_full", "hwal_groups"),
]

# ---- the store

A_FILE = {"hwal-store": b""}
IS_HELD = "hwal: the store is WHERE/hwal-store; "
TWICE = IS_HELD + "nothing was written: mend the cause, and give the command again"
AGAIN = IS_HELD + "nothing is lost: mend the cause, and give the command again"
LOG_AGAIN = IS_HELD + "the puts that were answered ok are durable, and maybe the next one: show prints them; mend the cause, and run the script again in an empty folder"
RUN_AGAIN = "the synced puts that were answered ok are durable: mend the cause, and recover tells how far each region goes"
LOAD_AGAIN = IS_HELD + "it may have a part of the load: mend the cause, and remove the folder"
NO_FOLDER = "Not a directory (os error 20)"
LOAD = "load --start 0 --handlers 1 --regions 1 --count 1"
LOG_1 = {"hwal-store": None, "hwal-store/log-1": log_of(1, entry(1, 1))}
TORN_LOG = log_of(1, entry(1, 1)).replace(b"\0\0\0\x0f", b"\xff\0\0\x0f")
TORN = {"hwal-store": None, "hwal-store/log-1": TORN_LOG}
TWO = {"hwal-store": None, "hwal-store/log-1": log_of(1, entry(1, 1)), "hwal-store/log-2": log_of(2, entry(1, 1, b"w"))}
BOTH = "hwal: the files log-1 and log-2 of WHERE/hwal-store have different entries for number 1 of region 1" + DAMAGED
SPENT = {"hwal-store": None, "hwal-store/log-1": log_of(1, entry(1, LAST))}
NONE_LEFT = f"hwal: region 1 has no number above {LAST} left: it takes no put any more; the edits of the report are durable"
IS_THERE = "hwal: WHERE/hwal-store has the file log-1, and {}; nothing was written: move the folder away, or work in another directory"
NO_PLACE = "hwal: there is no such position: log-{} of WHERE/hwal-store has {} entries, or isn't there while a later log is; begin at the last position that was printed of this store"
WRONG = "hwal: WHERE/hwal-store-1 has something of region 2, which is of another folder; no folder was changed: were folders exchanged, or was their number another one before?"
OF_GROUPS = {"hwal-store-1": None, "hwal-store-1/log-1": log_of(1, entry(2, 1)), "hwal-store-2": None}
TORN_GROUP = {"hwal-store-1": None, "hwal-store-2": None, "hwal-store-2/log-1": TORN_LOG}
STORES = [
    Row("disk", "show", 5, (f"hwal: size log-1: {NO_FOLDER}", TWICE), lies=A_FILE),
    Row("disk", "dump 1", 5, (f"hwal: size log-1: {NO_FOLDER}", TWICE), lies=A_FILE),
    Row("disk", "ship 1 0", 5, (f"hwal: list hwal-store: {NO_FOLDER}", TWICE), lies=A_FILE),
    Row("disk", "recover", 5, (f"hwal: sync hwal-store: {NO_FOLDER}", AGAIN), lies=A_FILE),
    Row("disk", "compact major 1", 5, (f"hwal: sync hwal-store: {NO_FOLDER}", AGAIN), lies=A_FILE),
    Row("disk", "log", 5, (f"hwal: list hwal-store: {NO_FOLDER}", LOG_AGAIN), ONE, A_FILE),
    Row("disk", "run", 5, (f"hwal: sync hwal-store: {NO_FOLDER}", IS_HELD + RUN_AGAIN), ONE, A_FILE),
    Row("disk", LOAD, 5, (f"hwal: list hwal-store: {NO_FOLDER}", LOAD_AGAIN), lies=A_FILE),
    Row("disk", "1", 5, (f"hwal: sync hwal-store-1: {NO_FOLDER}", "hwal: the store is WHERE/hwal-store-*; " + RUN_AGAIN), ONE, {"hwal-store-1": b""}, program="hwal_groups"),
    Row("damaged", "show", 7, ("hwal: the file WHERE/hwal-store/log-1 is damaged, which shows at byte 16" + DAMAGED,), lies=TORN),
    Row("damaged", "recover", 7, ("hwal: the file WHERE/hwal-store/log-1 is damaged, which shows at byte 16" + DAMAGED,), lies=TORN),
    Row("damaged", "2", 7, ("hwal: the file WHERE/hwal-store-2/log-1 is damaged, which shows at byte 16" + DAMAGED,), ONE, TORN_GROUP, program="hwal_groups"),
    Row("disagree", "run", 7, (BOTH,), ONE, TWO),
    Row("spent", "run", 8, (NONE_LEFT,), ONE, SPENT),
    Row("spent", "1", 8, (NONE_LEFT,), ONE, {f"hwal-store-1{name[10:]}": data for name, data in SPENT.items()}, program="hwal_groups"),
    Row("store", "log", 9, (IS_THERE.format("log begins a new store (run goes on with one)"),), ONE, LOG_1),
    Row("store", LOAD, 9, (IS_THERE.format("load fills an empty folder"),), lies=LOG_1),
    Row("position", "ship 1 3", 10, (NO_PLACE.format(1, 1),), lies=LOG_1),
    Row("position", "ship 5 3", 10, (EMPTY, NO_PLACE.format(5, 0))),
    Row("group", "2", 11, (WRONG,), ONE, OF_GROUPS, program="hwal_groups"),
]

# ---- a folder that isn't there: no fault, but said

ABSENT = [Row("absent", words, 0, (EMPTY,), ONE) for words in ("show", "recover", "dump 1", "ship 1 0", "compact major 1", "run")]
ABSENT += [Row("absent", "log", 0, (), ONE), Row("absent", "show", 0, (), lies=STORE)]
ABSENT += [Row("absent", "2", 0, ("hwal: there was no folder WHERE/hwal-store-2: it reads as an empty store",), ONE, {"hwal-store-1": None}, program="hwal_groups")]

# ---- memory

MEMORY = [
    Row("memory", "log", 1, ("hwal: out of memory; nothing was written: give it more memory",), ONE + b"#\n" * (2**23 - 64), how="little_memory"),
    Row("memory", "run", 1, ("hwal: out of memory; with a report its edits are durable, without one nothing is lost that was there: give it more memory, and recover tells how far each region goes",), ONE + b"#\n" * (2**23 - 64), STORE, how="little_memory"),
]

ROWS = USAGE + SCRIPT + STREAMS + STORES + ABSENT + MEMORY
