"""What the program says of itself, as data: its help, and that of each command."""
import os
import re
import subprocess

TOP = os.path.dirname(os.path.dirname(os.path.abspath(__file__)))
BUILT = os.path.join(TOP, "crates", "dollar", "out", "dollar")


def said(program, *words):
    return subprocess.run([program, *words], stdin=subprocess.DEVNULL, stdout=subprocess.PIPE, text=True, check=True).stdout


class Help:
    """A help text: the line that tells what a command does, its usage, the items of each list with their lines, and the text
    below."""

    def __init__(self, text):
        self.about, _, rest = text.partition("\n\n")
        self.usage = re.search(r"^Usage: \S+ (.*)$", rest, re.M)[1]
        self.lists, below, name = {"Arguments": [], "Options": [], "Commands": []}, [], None
        for line in rest.splitlines():
            heading = re.fullmatch(r"(Arguments|Options|Commands):", line)
            if heading:
                name = heading[1]
            elif name and re.match(r"  \S|      --", line):
                item, _, told = line.strip().partition("  ")
                self.lists[name].append((item, [told.strip()]))
            elif name and re.match(r" {6,}\S", line):
                self.lists[name][-1][1].append(line)
            elif name and self.lists[name] and line.strip():
                name = None
                below.append(line)
            elif not line.startswith("Usage: "):
                below.append(line)
        self.below = "\n".join(below)

    def arguments(self):
        """The arguments in their order; the last has three dots after it if there may be many, of which one has to be there."""
        words = [word.replace("]...", "]") for word in self.usage.split(" ")[1:] if word != "[OPTIONS]"]
        return [re.sub(r"[<>\[\]]", "", word) for word in words]

    def options(self):
        """The long options, each with the name of its value, or None, and what is said of it."""
        for item, lines in self.lists["Options"]:
            found = re.fullmatch(r"(?:-\w, )?--([a-z]+)(?: <(\w+)>)?", item)
            yield found[1], found[2], lines[0]


def commands(program):
    """The commands, each with its help."""
    names = [name for name, _ in Help(said(program, "--help")).lists["Commands"]]
    return {name: Help(said(program, "help", "help") if name == "help" else said(program, name, "--help")) for name in names}
