"""Scripts for the program, made of a seed."""
import random


def cells(chance, row, count, families=("f", "g", "h"), big=0.1):
    out = []
    for it in range(count):
        size = chance.randint(5000, 40000) if chance.random() < big else chance.choice((0, 1, 20, 300, 1500))
        value = "".join(chance.choice("abcdefghijklmnop") for _ in range(64)) * (size // 64) + "v"
        out.append(f"cell {row} {families[it % len(families)]} q{it} {chance.randint(1, 9)} put {value}")
    return out


def text(regions, handlers, lines, time=1):
    return ("\n".join([f"time {time}", f"regions {regions}", f"handlers {handlers}", *lines]) + "\n").encode()


def script(seed, regions, handlers, calls, sync=0.8, flush=0.08, roll=0.05, big=0.1, deletes=0.0):
    """Returns a script of puts in many sizes, with flushes of a region or of one family, and rolls."""
    chance, lines = random.Random(seed), []
    for call in range(calls):
        for handler in range(1, handlers + 1):
            region, what = chance.randint(1, regions), chance.random()
            if what < flush:
                lines.append(f"flush {handler} {region}" + chance.choice(("", " f", " g")))
            elif what < flush + roll:
                lines.append(f"roll {handler}")
            else:
                lines += put(chance, seed, handler, handlers, region, call, sync, big, deletes)
    return text(regions, handlers, lines)


def put(chance, seed, handler, handlers, region, call, sync, big, deletes):
    """Returns the lines of a put of one to three cells, or of deletes of an earlier row."""
    count = chance.choice((1, 1, 2, 3))
    head = f"put {handler} {region} {'sync' if chance.random() < sync else 'async'} {count}"
    if chance.random() < deletes:
        row = f"{seed}-{chance.randint(1, handlers)}-{chance.randint(0, call)}"
        return [head] + [f"cell {row} {chance.choice('fg')} q{it} 9 delete-family -" for it in range(count)]
    return [head] + cells(chance, f"{seed}-{handler}-{call}", count, big=big)


def large(seed, regions, handlers, calls):
    """Returns a script of puts of half a million bytes, so that a commit is of many pages, and a store of many writes."""
    lines = []
    for call in range(calls):
        for handler in range(1, handlers + 1):
            lines.append(f"put {handler} {1 + (handler + call) % regions} sync 8")
            lines += [f"cell {seed}-{handler}-{call} f q{it} 1 put {chr(97 + (handler + it + call) % 26) * 60000}" for it in range(8)]
        lines += [f"flush 1 {1 + call % regions}"] * (call == 2) + ["roll 2"] * (call == 1)
    return text(regions, handlers, lines)


def puts(seed, count):
    """Returns a script for `log`: puts of one handler."""
    chance = random.Random(seed)
    return text(1, 1, [line for it in range(count) for line in ["put 1 1 sync 1", *cells(chance, f"r{it}", 1)]], time=1000)


def turns(seed, big=0.2):
    """Returns a script of one handler with each kind of call: short and long puts, a flush, one of a family, a roll."""
    chance = random.Random(seed)
    some = lambda name: [line for it in range(3) for line in ["put 1 1 sync 1", *cells(chance, f"{seed}-{name}{it}", 1, big=big)]]
    other = ["put 1 2 sync 2", *cells(chance, f"{seed}-other", 2, big=big)]
    return text(2, 1, some("a") + other + ["flush 1 1"] + some("b") + ["flush 1 1 f", "roll 1"] + other[:1] + cells(chance, f"{seed}-last", 2) + some("c"))
