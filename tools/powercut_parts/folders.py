"""Folders and their files, as bytes by name."""
import os
import shutil

# Where the program keeps its stores, below the working directory.
STORES = ["hwal-store", "hwal-store-1", "hwal-store-2", "hwal-store-3", "hwal-store-4"]

# The end of the name of a copy that isn't in its place: no file of a store.
PART = ".part"


def files_in(folder):
    """Returns the files of a folder, bytes by name, or None where it isn't there. A folder that can't be read is an error."""
    try:
        names = os.listdir(folder)
    except FileNotFoundError:
        return None
    return {name: bytes_of(f"{folder}/{name}") for name in names}


def bytes_of(path):
    with open(path, "rb") as it:
        return it.read()


def stores_in(work):
    """Returns the files of each folder of a store that is there."""
    found = {it: files_in(f"{work}/{it}") for it in STORES}
    return {it: files for it, files in found.items() if files is not None}


def without_parts(files):
    """Returns the files of the store among these."""
    return {name: data for name, data in files.items() if not name.endswith(PART)}


def fill(folder, files):
    """Makes the folder anew, with these files."""
    shutil.rmtree(folder, ignore_errors=True)
    os.makedirs(folder)
    for name, data in files.items():
        with open(f"{folder}/{name}", "wb") as it:
            it.write(data)
