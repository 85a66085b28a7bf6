"""Reads and makes the bytes of a store's files, by docs/FORMAT.md alone: a second reader beside the program's.

    cells       a cell in its two spellings, and the order of numbered cells
    logs        log and edits files
    stores      store files
    names       the names of files
    printed     tokens, and the lines that `dump`, `show` and `ship` print
    folders     the files of a folder, read under the lock that `show` takes
    recovery    the first damage among files, what is flushed, and what the files recover to

Nothing here writes a file. `tools/agree` checks it against the program.
"""
