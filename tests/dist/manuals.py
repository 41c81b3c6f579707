"""What a manual and a page of help say: options, arguments, lines of scripts, and examples with what they print."""
import re
import shutil
import subprocess

# A line of the help that begins an option or an argument, as "  -c, --count <N>  How many" or "  [FILE]...  What to read".
OPTION = re.compile(r"^ +(?:-(\w), )? *--([\w-]+)(?: <(\w+)>)?(?:  |$)", re.MULTILINE)
ARGUMENT = re.compile(r"^  (?:<(\w+)>|\[(\w+)\]\.\.\.)  ", re.MULTILINE)

# A line that begins one of a script or a schedule, as "commit T TIME  it commits".
LINE = re.compile(r"^(?:  )?([a-z]+ [A-Z'](?:\S| (?! ))*)", re.MULTILINE)


def plain(text):
    """The text of a manual without the marks for letters and fonts."""
    return re.sub(r"\\f[BIRP]", "", text.replace(r"\-", "-").replace(r"\(aq", "'"))


def of_help(text):
    """Each option with its letter and its value, and each argument."""
    options = {(name, letter, value) for letter, name, value in OPTION.findall(text)}
    return options | {(one or more, "", "") for one, more in ARGUMENT.findall(text)}


def of_manual(text):
    """The same of the section OPTIONS, where each stands after a .TP."""
    section = re.search(r"^\.SH OPTIONS$(.*?)^\.SH ", plain(text), re.MULTILINE | re.DOTALL).group(1)
    found = set()
    for macro, line in re.findall(r"^\.TP\n\.([A-Z]+) (.*)$", section, re.MULTILINE):
        words = line.replace('"', " ").replace(",", " ").split()
        letters = [word[1:] for word in words if re.fullmatch(r"-\w", word)]
        names = [word[2:] for word in words if word.startswith("--")]
        values = [word for word in words if not word.startswith("-")]
        found.add((names[0], "".join(letters), "".join(values)) if names else (values[0], "", ""))
    return found


def lines(text):
    """The forms of lines that a text tells before its examples."""
    return set(LINE.findall(re.split(r"^For example|^\.SH EXAMPLES", plain(text), flags=re.MULTILINE)[0]))


def examples(text):
    """The words of each command after a $, with the lines that it is shown to print."""
    found = []
    for block in re.findall(r"^(?:```|\.EX)\n(\$ .*?)^(?:```|\.EE)$", plain(text), re.MULTILINE | re.DOTALL):
        command, _, due = block.partition("\n")
        found.append((command[2:].split(), due))
    return found


def warnings(manual):
    """What groff has to say about a manual; None where there is none."""
    if not shutil.which("groff"):
        return None
    return subprocess.run(["groff", "-man", "-Tutf8", "-ww", "-z", manual], capture_output=True, text=True).stderr.splitlines()
