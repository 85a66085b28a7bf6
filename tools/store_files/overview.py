"""What stands in a store's folder, as one value: files, damage, regions, which region holds which log, and how far a follower is."""
from .cells import Damaged
from .logs import LogText
from .names import name_of
from .recovery import is_left, look, refusal, regions_of, text_of


def overview(folder, position=None):
    """Of a Folder, and of a follower's position (log, entries) where there is one. Every file is read, old logs too."""
    sizes, files, texts, names = {}, [], {}, set(folder.names)
    for name in folder.names:
        data = folder.read(name)
        sizes[name] = len(data)
        text = look(name, names, lambda _, data=data: data)
        if name.kind == "old" and not isinstance(text, Damaged):
            files.append(of_file(name, data, any_text(name, data)))
        else:
            files.append(of_file(name, data, text))
            texts[name] = text
    regions = regions_of(texts)
    left = {name: left_in(text, regions) for name, text in texts.items() if isinstance(text, LogText)}
    seen = {"folder": folder.path, "bytes": sum(sizes.values()), "old_log_bytes": sum(size for name, size in sizes.items() if name.kind == "old")}
    seen |= {"opening_refuses": refusal(texts), "files": files, "regions": [of_region(number, it, left) for number, it in regions.items()]}
    seen["held_logs"] = held_logs(left)
    if position is not None:
        seen["follower"] = lag(folder, *position)
    return seen


def any_text(name, data):
    try:
        return text_of(name, data)
    except Damaged as damage:
        return damage


def of_file(name, data, text):
    seen = {"name": str(name), "bytes": len(data)}
    if isinstance(text, Damaged):
        return seen | {"damaged_at": text.at}
    if text is None:
        return seen | {"is_there": False}
    if isinstance(text, LogText):
        seen |= {"entries": len(text.entries), "cells": sum(len(it.cells) for it in text.entries), "numbers": numbers_of(text.entries)}
        seen |= {"ended": text.ended is not None, "version": data[7] if text.last_gate else None}
        return seen | {"bytes_after_the_text": len(data) - text.last_gate - 1 if text.last_gate else 0}
    seen |= {"format": text.word.decode(), "scope": text.scope, "family": shown(text.family) if text.family else None}
    return seen | {"flushed_from": text.flushed_from, "flushed_to": text.flushed_to, "cells": len(text.cells)}


def shown(name):
    return name.decode("ascii", "backslashreplace")


def numbers_of(entries):
    """Of each region the least and the greatest number."""
    found = {}
    for entry in entries:
        low, high = found.get(entry.region, (entry.number, entry.number))
        found[entry.region] = (min(low, entry.number), max(high, entry.number))
    return [{"region": region, "from": low, "to": high} for region, (low, high) in sorted(found.items())]


def left_in(text, regions):
    """Of each region the entries of a log that have a cell above what is flushed of its family: {number: bytes}."""
    flushed, left = {number: region.flushed() for number, region in regions.items()}, {}
    for at, entry in enumerate(text.entries):
        if any(is_left(entry.number, cell.family, flushed[entry.region]) for cell in entry.cells):
            left.setdefault(entry.region, {})[entry.number] = text.bytes_of(at)
    return left


def of_region(number, region, left):
    """`left` has by log or edits file what `left_in` gives."""
    flushed, counting, alone = region.flushed(), region.counting(), {}
    for entries in left.values():
        alone.update(entries.get(number, {}))
    families = [{"family": shown(family), "to": to} for family, to in sorted(flushed.items()) if family and to > flushed[b""]]
    seen = {"region": number, "last": region.last(), "cells": len(region.cells()), "flushed_to": flushed[b""], "families_flushed_further": families}
    seen |= {"stores_that_count": len(counting), "stores_that_do_not": len(region.stores) - len(counting)}
    return seen | {"entries_in_logs_alone": len(alone), "bytes_in_logs_alone": sum(alone.values())}


def held_logs(left):
    """Which regions keep which log from becoming an old one."""
    held = [(name, entries) for name, entries in sorted(left.items()) if name.kind == "log" and entries]
    return [{"name": str(name), "by": [{"region": region, "entries": len(them)} for region, them in sorted(entries.items())]} for name, entries in held]


def lag(folder, file, entries):
    """What stands after a follower's position: logs from its log on, of a number the log before the old one."""
    seen = {"file": file, "entries": entries, "entries_behind": 0, "bytes_behind": 0, "refused": None}
    logs = {name.number: name for name in sorted(folder.names, reverse=True) if name.kind in ("log", "old")}
    highest = max(logs, default=0)
    number, passed = file, entries
    while number in logs:
        text = any_text(logs[number], folder.read(logs[number]))
        if isinstance(text, Damaged):
            return seen | {"refused": f"damaged {logs[number]} {text.at}"}
        if passed > len(text.entries):
            return seen | {"refused": f"position {number} {len(text.entries)}"}
        seen["entries_behind"] += len(text.entries) - passed
        seen["bytes_behind"] += sum(text.bytes_of(at) for at in range(passed, len(text.entries)))
        number, passed = number + 1, 0
    if highest > number or passed:
        seen["refused"] = f"position {number} 0"
    below = [name for name in folder.names if name.kind == "old" and name.number < file]
    return seen | {"old_logs_that_it_has": [str(name) for name in below if name_of("log", name.number) not in folder.names]}
