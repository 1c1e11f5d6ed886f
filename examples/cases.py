"""The sessions of this folder and of the documents: what is typed, and what must be printed.

NAME.kenzo is a script, NAME.out what it prints. A block of a document whose first line begins with `> ` is a transcript: such lines are
typed, the others are printed. The blocks under one heading `## ..` make one session, and so do those under one heading `### ..`.
"""
import os
import re

FOLDER = os.path.dirname(os.path.realpath(__file__))
DOCUMENTS = [os.path.join(FOLDER, "..", *path) for path in (("README.md",), ("docs", "tour.md"), ("docs", "language.md"))]


def scripts():
    for entry in sorted(os.listdir(FOLDER)):
        name, kind = os.path.splitext(entry)
        if kind == ".kenzo":
            yield name, read(name + ".kenzo"), read(name + ".out")


def read(entry):
    with open(os.path.join(FOLDER, entry), encoding="ascii") as text:
        return text.read()


def transcripts():
    for path in DOCUMENTS:
        document = os.path.splitext(os.path.basename(path))[0]
        with open(path, encoding="utf-8") as text:
            chapters = re.split("\n###? ", text.read())[1:]
        for chapter in chapters:
            heading = chapter.split("\n", 1)[0]
            typed, printed = session_of(chapter)
            if typed:
                yield f"{document}: {heading}", typed, printed


def session_of(chapter):
    typed, printed = "", ""
    for block in chapter.split("\n```")[1::2]:
        lines = block.split("\n")[1:]
        if not lines or not lines[0].startswith("> "):
            continue
        for line in lines:
            if line.startswith("> "):
                typed += line[2:] + "\n"
            else:
                printed += line + "\n"
    return typed, printed


def cases():
    yield from scripts()
    yield from transcripts()
