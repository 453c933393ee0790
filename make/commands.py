"""The commands of hd, with their words and options, as its help tells them."""
import collections
import re
import subprocess

Command = collections.namedtuple("Command", "name about words options")
Command.__doc__ = "A command, what it does, its words in their order, and its options."
Word = collections.namedtuple("Word", "name is_needed about")
Option = collections.namedtuple("Option", "names value choices about")
Option.__doc__ = "An option: its names, the name of its value, if it has one, and the words that the value may be, if only some may."


def said(program, *words):
    """What the program prints, on both streams."""
    return subprocess.run([program, *words], stdin=subprocess.DEVNULL, stdout=subprocess.PIPE, stderr=subprocess.STDOUT, encoding="utf-8", timeout=60).stdout


def sections(text):
    """The lines below each heading of a help."""
    found, heading = collections.defaultdict(list), ""
    for line in text.split("\n"):
        if re.match(r"[A-Z][a-z]+:$", line):
            heading = line[:-1]
        elif line.strip():
            found[heading].append(line)
    return found


def option_of(line):
    """An option of a line of the help: `  -h, --help  ..` or `      --cache <BLOCKS>  ..`."""
    names, value, about = re.match(r"\s*((?:-\w, )?--[\w-]+|-\w)(?: <(\w+)>)?\s*(.*)", line).groups()
    choices = re.search(r" \[possible values: ([^]]*)\]", about)
    return Option(names.split(", "), value, choices[1].split(", ") if choices else [], about.replace(choices[0], "") if choices else about)


def options_of(help):
    return [option_of(line) for line in help["Options"]]


def command_of(program, name, about):
    """A command, by its own help."""
    help = sections(said(program, name, "--help"))
    found = [re.match(r"\s*([<\[])(\w+)[>\]]\s*(.*)", line).groups() for line in help["Arguments"]]
    words = [Word(word, bracket == "<", text) for bracket, word, text in found]
    return Command(name, about, words, options_of(help))


def commands_of(program):
    """The program without a command, and its commands."""
    help = sections(said(program, "--help"))
    listed = [line.split(None, 1) for line in help["Commands"]]
    return Command("", "", [], options_of(help)), [command_of(program, name, about) for name, about in listed if name != "help"]
