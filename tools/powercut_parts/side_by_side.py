"""Several pieces of work at a time, each in a process of its own."""
import os
import pickle
import signal
import sys
import traceback

import native


def each(work, items, most, room):
    """Gives (item, answer, trouble) of each item as it is done: `work(item, folder)` in a process and a folder of its own,
    at most so many at a time. No further item is asked for before there is a place for it."""
    items, running, number = iter(items), {}, 0
    try:
        while True:
            while len(running) < most and (item := next(items, None)) is not None:
                number += 1
                running[begun(work, item, f"{room}/{number}")] = (item, f"{room}/{number}")
            if not running:
                return
            child, _ = os.wait()
            if child in running:
                item, at = running.pop(child)
                yield item, *answer_in(at)
    finally:
        stop(running)


def stop(children):
    for child in children:
        os.kill(child, signal.SIGTERM)
    for child in children:
        os.waitpid(child, 0)


def begun(work, item, at):
    """Begins a piece of work, and returns its process."""
    sys.stdout.flush()
    child = os.fork()
    if child:
        return child
    out = (None, "stopped")
    try:
        out = (work(item, at), None)
    except Exception:
        out = (None, traceback.format_exc())
    finally:
        ended(at, out)
    os._exit(0)


def ended(at, out):
    """Takes down what is mounted, and leaves the answer."""
    try:
        native.release(at)
        os.makedirs(at, exist_ok=True)
        with open(f"{at}/answer", "wb") as it:
            pickle.dump(out, it)
    except Exception:
        traceback.print_exc()
    os._exit(0)


def answer_in(at):
    try:
        with open(f"{at}/answer", "rb") as it:
            return pickle.load(it)
    except OSError as e:
        return None, f"left no answer: {e}"
