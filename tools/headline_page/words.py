"""What the pages say by hand: what each word of README's sentence is, where the pages stop, and how the kit's signs are read.

Each definition and field that is named here has to be in the sources; `tools/headline --check` says which isn't.
"""

# (words of the sentence, where, what they are). Where: DEFINITION or DEFINITION.FIELD.
SENTENCE = [
    ("For every script", ["RunsScript", "EndsRun"],
     "Of each script that a source holds, in whatever order the handlers' threads took turns. `EndsRun` has each way in which a run ends: "
     "where the files found aren't sound, the disk failed or memory ran out, it may end with one line and no report."),
    ("the report gives each region one list of numbered edits", ["IsHeadline.is", "report_of", "IsOneReport.regions", "IsJournal.numbers"],
     "The bytes printed are the report of `histories` and `replies`. There is one `History` for each region from 1 on: its base, which "
     "is what the files found recover to, and one list of edits, numbered from the base on without gaps."),
    ("that holds each handler's writes once, in its order", ["IsLawful.puts", "IsLawful.told", "IsOneJournal.asked", "InCallOrder"],
     "A put that drew a number has its edit, with its cells; each edit is of one put of the script; no call has two, and of one handler "
     "they come in the order of its calls."),
    ("each scan is exactly the completed edits up to a point", ["IsLawful.scans", "visible"],
     "Its cells are those of the base and of the edits done up to the point, with rows in its range, in order: none missing, none more. "
     "An edit that failed shows nothing."),
    ("no older than its handler had seen", ["IsLawful.places", "KeepsPlaces"],
     "Of two calls of one handler on a region the later one's point is never below the earlier one's number or point, so a handler "
     "reads what it wrote."),
    ("after any crash of the disk left", ["Endures.images", "IsImageNow"],
     "Each set of files that a crash at the end may leave, by the model of the disk. `throughout` says the same of each moment since the server was begun, but for receipts."),
    ("split and replay give a prefix of that list", ["Fits.content", "IsRecovered", "cut_at"],
     "What those files recover to for the region is the base with the edits up to some number m. `IsRecovered` speaks of files alone; "
     "that an opening gives just this content is the contract of `split`, `replay` and `recover_all`."),
    ("each edit once", ["Fits.content", "IsContent"],
     "The content is a map from versions to what they hold, and it holds a version exactly where the edits up to m put it."),
    ("every receipted edit among them", ["Endures.images", "IsReceipted"],
     "m is at or above each number that a put with `sync` or a flush was answered, and is the last one where no fault ended the log."),
]

# Fields of the headline that the sentence speaks of; the others are what the contract says beyond it.
SAID = ("histories", "replies", "is", "report", "journals", "lawful", "endures")

BEYOND = [
    ("IsHeadline.statuses", "which status the report ends with"),
    ("IsHeadline.sound", "a store is opened only where its files are sound"),
    ("IsHeadline.serial_history", "the calls of all handlers on a region have one order in which one thread would have got the same answers"),
    ("IsHeadline.others", "a region that the script leaves out recovers as it was found"),
    ("IsHeadline.images_sound", "what a crash leaves can be opened again, where no file found has a number above 2^61"),
    ("IsHeadline.done", "what a flush, a roll and the archiving after it left in the files"),
    ("IsHeadline.throughout", "a crash at any moment since the server was begun leaves the base with a prefix of the edits, and before that what an opening may leave"),
]

GROUPS = [
    ("IsGroupsHeadline.each_region",
     "of each region the fields `report`, `journals`, `lawful`, `serial_history` and `endures` of the headline of `run`, on the disk of "
     "its group and of the replies to the calls on that group"),
    ("IsGroupsHeadline.each_group", "of each disk the fields `sound`, `others`, `images_sound`, `done` and `throughout`"),
    ("IsGroupsHeadline.regions", "one history for each region, whichever group it is of"),
    ("IsGroupsHeadline.calls", "one reply for each call of the script"),
    ("group_of", "which group a region is of"),
    ("group_for", "on which group's server a call is made"),
]

# Where the pages stop: what stands there, and the page that goes on.
STOPS = {
    ("script_model", "Report", "report_text"): ("the report's lines as bytes", "COMMANDS.md"),
    ("log_model", "LogText", "IsLogText"): ("bytes are those of a log or edits file with these entries", "FORMAT.md"),
    ("log_model", "StoreText", "IsStoreText"): ("bytes are those of this store file", "FORMAT.md"),
    ("log_model", "Files", "name_cmp"): ("the order of files' names: by kind, region, number", "FORMAT.md"),
}
# Where the first part stops and the second goes on.
LATER = ("mask_model", "Masked", "masked")

SIGNS = """| Sign | Read |
|---|---|
| `a ≡ b`, `a ≢ b` | they are equal, they aren't |
| `P × Q`, `P ⊎ Q`, `P ↔ Q` | both, one of them, each where the other |
| `P → Q`, `(x : T) → P` | if P then Q; for each x |
| `(x : T) × P` | there is an x with P |
| `∥ P ∥₁` | P, and which way it holds isn't told |
| `⊥`, `Unit {0}`, `IsTrue b` | never, always, where b is true |
| `x.0`, `x.1`; `λ x. e` | the first and the second of a pair; e as a function of x |
| `Contains xs x`, `AllPairs R xs` | x is in the list; R holds of each member and each later one |
| `[]`, `x ∷ xs`, `xs ++ ys` | the empty list, one that begins with x, one after the other |
| `Option`, `None`, `Some x` | nothing, or an x |
| `FinMap`, `empty`, `get m k`, `insert m k v`, `entries m` | a map in the order of its keys; its pairs in order |
| `range_with_len a n` | the list a, a + 1, .. of n members |
"""
