"""What was put in a session, whatever a cut may leave of it."""
import folders
import past
import stores


def put_in(recording, room, program, scratch):
    """Returns of each folder what was put, and which cells a compaction took away."""
    after = [it["stores"] for it in recording["steps"]]
    if None in after:
        # (the file system didn't let itself be read any more: what the program wrote until then)
        whole = past.Past(room, recording)
        whole.move_to(float("inf"))
        after[-1] = whole.contents()
    readable = [it for it in after if it is not None]
    return {name: put_in_folder([it.get(name, {}) for it in readable], program, scratch) for name in readable[-1]}


def put_in_folder(turns, program, scratch):
    """Of a folder's files after each command, the last of which is how the session left it."""
    entries = {}
    for logs in fresh_logs(turns):
        for region, edits in stores.entries_in(program, scratch, logs).items():
            for number, cells in edits.items():
                stores.add(entries, region, number, cells)
    opened = stores.Openings(program, scratch).opened(turns[-1])
    if opened.wrong:
        raise ValueError(f"the store as it was left: {opened.wrong}")
    return stores.Put(entries, {region: lacking(edits, opened.cells.get(region, {})) for region, edits in entries.items()})


def fresh_logs(turns):
    """Gives of each turn the logs that no earlier one has."""
    seen = set()
    for files in map(folders.without_parts, turns):
        logs = {name: data for name, data in files.items() if name.startswith(("log-", "old-")) and data not in seen}
        seen.update(logs.values())
        yield logs


def lacking(edits, has):
    """Returns the cells that were put and that a store doesn't have."""
    return {cell for edit in edits.values() for cell in edit} - has.keys()
