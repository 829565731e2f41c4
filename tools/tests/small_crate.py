"""The crate of small/, laid out as a project.

Its files are stored with the ending .txt: a file of Rattle outside crates/, and a second
crates.txt, are errors to `rt`.
"""
import os

HERE = os.path.dirname(os.path.realpath(__file__))


def write(path, text):
    os.makedirs(os.path.dirname(path), exist_ok=True)
    with open(path, "w", encoding="utf-8") as file:
        file.write(text)


def lay(root):
    """Writes the project with the small crate to the folder ROOT."""
    stored = os.path.join(HERE, "small")
    for place, _, names in os.walk(stored):
        for name in names:
            path = os.path.relpath(os.path.join(place, name), stored)
            with open(os.path.join(place, name), encoding="utf-8") as file:
                write(os.path.join(root, path.removesuffix(".txt")), file.read())
