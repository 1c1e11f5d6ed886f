"""The crates of a checkout, and copies of it."""
import os
import shutil


def text_of(path):
    with open(path, encoding="utf-8", errors="replace") as file:
        return file.read()


class Crates:
    """The lines of crates.txt, and what each crate stands on within the repository."""

    def __init__(self, top):
        self.top = top
        self.lines, needs = {}, {}
        for line in text_of(os.path.join(top, "crates.txt")).splitlines():
            head, colon, tail = line.partition("#")[0].partition(":")
            if colon:
                name = head.split()[0]
                self.lines[name], needs[name] = line, tail.split()
        self.below = {name: [it for it in named if it in needs] for name, named in needs.items()}

    def programs(self):
        return [it for it in self.below if os.path.exists(os.path.join(self.top, "crates", it, "src", "main.rt"))]

    def with_all_below(self, names):
        """These crates and all that they stand on, in the order of crates.txt."""
        found, left = set(), list(names)
        while left:
            name = left.pop()
            if name not in found:
                found.add(name)
                left += self.below[name]
        return [it for it in self.lines if it in found]

    def copy(self, names, to):
        """Copies these crates to the folder `to`, without what was built, and without the edits that the gate tries."""
        os.makedirs(os.path.join(to, "crates"))
        for name in names:
            ignored = shutil.ignore_patterns("out", "must-fail")
            shutil.copytree(os.path.join(self.top, "crates", name), os.path.join(to, "crates", name), ignore=ignored)
        shutil.copy2(os.path.join(self.top, "HANDLES"), to)
        with open(os.path.join(to, "crates.txt"), "w", encoding="utf-8") as file:
            file.writelines(f"{self.lines[it]}\n" for it in names)
