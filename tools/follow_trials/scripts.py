"""Random scripts."""

REGIONS, HANDLERS = 4, 4


def token(chance):
    """Returns a random token, of plain bytes or of any."""
    count = chance.choice([1, 2, 8])
    if chance.random() < 0.7:
        return "".join(chance.choice("abcxyz019-.\\'") for _ in range(count)).replace("-", "%2D")
    return "".join(f"%{chance.randrange(256):02X}" for _ in range(count))


def cell(chance, time_of):
    """Returns a random cell line."""
    kind = chance.choice(["put"] * 8 + ["delete", "delete-column", "delete-family", "delete-family-version"])
    qualifier = "-" if chance.random() < 0.1 else token(chance)
    value = "-" if kind != "put" or chance.random() < 0.1 else token(chance)
    tags = " " + token(chance) if chance.random() < 0.1 else ""
    return f"cell {token(chance)} {chance.choice('fg')} {qualifier} {time_of + chance.randrange(5)} {kind} {value}{tags}"


def script(chance, calls, time_of):
    """Returns a script of random calls."""
    lines = [f"time {time_of}", f"regions {REGIONS}", f"handlers {HANDLERS}"] + (["table t%20one"] if chance.random() < 0.3 else [])
    for _ in range(calls):
        handler, draw = chance.randint(1, HANDLERS), chance.random()
        region = chance.randint(1, REGIONS)
        if draw < 0.002:
            lines.append(f"roll {handler}")
        elif draw < 0.004:
            lines.append(f"flush {handler} {region}")
        else:
            cells = chance.choice([1, 1, 1, 2, 5])
            lines.append(f"put {handler} {region} {'sync' if draw < 0.03 else 'async'} {cells}")
            lines += [cell(chance, time_of) for _ in range(cells)]
    return "\n".join(lines).encode() + b"\n"
