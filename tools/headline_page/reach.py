"""What a definition names, and all that some definitions stand on, but for where the page stops."""
import re

from .sources import file_of, find, named_in

WORD = re.compile(r"[^\s(){}\[\];,.|∥]+|\.(?=\S)")
BINDERS = re.compile(r"\(([^():]+) :|λ \(?([^.:()]+)[.:]|λ \(([^):]+) :")


def bound(definition):
    """The names that a definition itself gives: its arguments, variables, fields and constructors."""
    text = "\n".join(definition.text)
    names = set(definition.makers)
    for groups in BINDERS.findall(text):
        names |= {word for group in groups for word in group.split()}
    names |= set(re.findall(r"^\s+(?:pub )?(\w+) :", text, re.M))
    names |= set(re.findall(r"(?:[{;]|^)\s*(\w+) = ", text, re.M))
    for line in definition.text[1:]:
        if line.startswith(definition.name + " ") and " = " in line + " ":
            names |= {word for word in WORD.findall(line.split(" =")[0]) if word[:1].islower()}
    return names - {definition.name}


def words_of(definition):
    """Each word of a definition's text without comments, with the word before the point in front of it, where there is one."""
    for line in definition.text:
        before = None
        words = WORD.findall(re.sub(r"^\s*(--|///|//) .*", "", line))
        for at, word in enumerate(words):
            if word != ".":
                before = words[at - 2] if at >= 2 and words[at - 1] == "." else None
                yield before, word


def named(definition):
    """The definitions that a definition names, each once, in the order of its text."""
    file, own, found = file_of(definition.path), bound(definition), {}
    for before, word in words_of(definition):
        if before in file.aliases:
            other = find(file.aliases[before], word)
        elif before or word in own and not definition.is_rust:
            other = None
        else:
            other = named_in(file, word) if not definition.is_rust else file.definitions.get(word)
        if other and (other.path, other.name) != (definition.path, definition.name):
            found.setdefault(id(other), other)
    return list(found.values())


def reached(tops, stops):
    """All that the definitions stand on, breadth first, not going past those in `stops` (by path and name)."""
    order, todo, known = [], list(tops), set()
    while todo:
        definition = todo.pop(0)
        if id(definition) in known:
            continue
        known.add(id(definition))
        order.append(definition)
        if (definition.path, definition.name) not in stops:
            todo += named(definition)
    return order
