"""What the help of the program tells: its commands, and the options of each."""
import re
import subprocess

NAME = "sel4sim"
# An option's entry: its letter, its name, what stands for its value, and what it is for.
OPTION = re.compile(r"(?:-(\w)(?:, |$))?(?:--([\w-]+))?(?:[ =]([<\[].*?[>\]]))?(?:\s{2,}(.*))?$")

FAR_RIGHT = 28


class Option:
    """An option: its spellings, what stands for its value, the values that the help has, and what it is for, also without these."""

    def __init__(self, entry):
        self.letter, self.name, value, about = OPTION.match(entry).groups()
        self.value, self.told = (value or "").strip("<>"), about or ""
        values = re.search(r"\[possible values: ([^]]*)\]", self.told)
        self.values = values[1].split(", ") if values else []
        self.about = re.sub(r"\s*\[[^]]*\]", "", self.told).strip()
        self.spellings = [*([f"-{self.letter}"] if self.letter else []), *([f"--{self.name}"] if self.name else [])]


class Help:
    """What a help text has: what it is of, its usage, commands with what they are for, options, exit statuses, examples, and whether
    files or names of commands can follow."""

    def __init__(self, text):
        usage = re.search(r"^Usage: (.*)$", text, re.M)
        self.about, self.usage = text.partition("\n")[0], usage[1] if usage else ""
        self.commands = [entry.split(None, 1) for entry in entries(text, "Commands")]
        self.options = [Option(entry) for entry in entries(text, "Options")]
        told = re.search(r"^Exit status:\n((?: .*\n)+)", text, re.M)
        self.statuses = [(number, " ".join(about.split())) for number, about in re.findall(r"^  (\d)  (.*(?:\n {4,}.*)*)", told[1] if told else "", re.M)]
        self.examples = examples(text)
        arguments = entries(text, "Arguments")
        self.takes_files = any(re.match(r"[<\[]\w*FILE", entry) for entry in arguments)
        self.takes_commands = any(re.match(r"[<\[]COMMAND", entry) for entry in arguments)


def entries(text, heading):
    """What stands below a heading, an entry each; a line that is indented further goes on with the one above."""
    section = re.search(rf"^{heading}:\n((?: .*\n|\n(?= ))+)", text, re.M)
    found = []
    for line in section[1].splitlines() if section else []:
        if re.match(r"  \S|      --", line):
            found.append(line.strip())
        elif line.strip() and found:
            found[-1] += ("" if re.search(r"\s{2,}", found[-1]) else " ") + " " + line.strip()
    return found


def examples(text):
    """The examples of a help text: each a command and what it gives; this may be on the line below, far to the right."""
    section = re.search(r"^Examples:\n((?: .*\n)+)", text, re.M)
    lines = re.sub(r"\n {%d,}" % FAR_RIGHT, "   ", section[1]).splitlines() if section else []
    return [(words, about.strip()) for words, _, about in (line.strip().partition("  ") for line in lines)]


def output(*words):
    done = subprocess.run(words, stdin=subprocess.DEVNULL, stdout=subprocess.PIPE, text=True, check=True, timeout=600)
    return done.stdout


def helps(program):
    """The help of the program, and of each command with its name and what it is for."""
    whole = Help(output(program, "--help"))
    asked = {"help": ("help", "help")}    # `help` takes no options
    return whole, [(name, about, Help(output(program, *asked.get(name, (name, "--help"))))) for name, about in whole.commands]
