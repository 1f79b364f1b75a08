"""What a program says of itself by `--help`, as clap writes it: its commands, and the texts and options of each."""
import re
import subprocess

# Clap's own command. It has no help of its own, and takes the names of the commands beside it.
HELP = "help"


class Entry:
    """An option or an argument: how it is written, the name of its value, its text, and the values it may have."""

    def __init__(self, head, text):
        self.head = head
        self.flags = re.findall(r"(?:^|, )(--?[\w-]+)", head)
        self.value = "".join(re.findall(r"[<\[]([^<>\[\]=]+)[>\]]", head)[:1])
        listed = re.search(r"\s*\[possible values: ([^\]]*)\]", text)
        self.values = listed[1].split(", ") if listed else []
        self.text = text.replace(listed[0], "") if listed else text

    def is_file(self):
        return self.value in ("FILE", "DIR")


class Command:
    """A command: the words that call it, its texts, and what it takes."""

    def __init__(self, words, about):
        self.words, self.about = words, about
        self.usage = self.after = ""
        self.commands, self.arguments, self.options = [], [], []

    def every(self):
        """This command, and all below it."""
        return [self, *(one for command in self.commands for one in command.every())]

    def is_help(self):
        return self.words[-1] == HELP

    def is_required(self, option):
        return any(re.search(rf"{flag}(?![\w-])", self.usage) for flag in option.flags)


def said(program, words):
    """What the program writes when it is asked so."""
    done = subprocess.run([program, *words], stdin=subprocess.DEVNULL, capture_output=True, text=True, timeout=60)
    if done.returncode != 0:
        raise SystemExit(f"{program} {' '.join(words)}: {done.stderr.strip() or done.returncode}")
    return done.stdout


def sections(lines):
    """The entries below each heading, as heads and texts, and the text behind the last."""
    found, entries = {}, []
    for number, line in enumerate(lines):
        indent = len(line) - len(line.lstrip())
        if line.endswith(":") and indent == 0 and "".join(lines[number + 1:number + 2]).startswith("  "):
            entries = found.setdefault(line[:-1], [])
        elif line and indent == 0:
            return found, "\n".join(lines[number:]).strip()
        elif indent == 2 or (indent == 6 and line[indent] == "-"):
            head, *text = re.split(r" {2,}", line.strip(), maxsplit=1)
            entries.append([head, *text])
        elif line:
            entries[-1].append(line.strip())
    return found, ""


def command(program, words, about=""):
    """What help says of the command of these words, and of those below it."""
    made = Command(words, about)
    if made.is_help():
        return made
    text = said(program, [*words[1:], "--help"])
    own, _, rest = ("\n" + text).partition("\nUsage: ")
    made.about = own.strip() or about
    made.usage, _, rest = rest.partition("\n\n")
    found, made.after = sections(rest.split("\n"))
    for heading, entries in found.items():
        for head, *texts in entries:
            text = " ".join(texts)
            if heading == "Commands":
                made.commands.append(command(program, [*words, head], text))
            else:
                (made.arguments if heading == "Arguments" else made.options).append(Entry(head, text))
    return made


def edition(program):
    """The program's name, and its edition."""
    return said(program, ["--version"]).split()


def asked(program):
    """All that help says of the program."""
    return command(program, [edition(program)[0]])
