"""What `topichub --help` and the help of each mode list, what the man pages list, and what a shell offers to complete."""
import glob
import os
import re
import shutil
import subprocess

from program import PATIENCE, ROOT

PAGES = os.path.join(ROOT, "packaging", "man")
COMPLETIONS = os.path.join(ROOT, "packaging", "completions")
BRIDGE = "bridge"  # which has a page, and is no mode
SHELLS = ("bash", "zsh", "fish")

# Offers what bash would at the end of the line $2, by the completion in the file $1.
IN_BASH = r"""
source "$1"
read -ra COMP_WORDS <<<"$2"
[[ $2 != *' ' ]] || COMP_WORDS+=('')
COMP_CWORD=$((${#COMP_WORDS[@]} - 1))
_topichub topichub "${COMP_WORDS[COMP_CWORD]}" "${COMP_WORDS[COMP_CWORD - 1]}"
printf '%s\n' "${COMPREPLY[@]}"
"""
IN_FISH = 'source $argv[1]; complete -C $argv[2]'


# ---- help

def printed(program, *words):
    return subprocess.run([program, *words], stdin=subprocess.DEVNULL, stdout=subprocess.PIPE, text=True, check=True,
                          timeout=PATIENCE).stdout


def block(text, heading):
    """The indented lines below a heading, up to the next empty one."""
    _, _, rest = ("\n" + text).partition(f"\n{heading}\n")
    return rest.partition("\n\n")[0]


def rows(text):
    """The left column of what stands in two columns."""
    return set(re.findall(r"^  (\S.*?) {2,}\S", text, re.M))


class Help:
    """The help of a mode, or of the program where the mode is empty."""

    def __init__(self, program, mode=""):
        self.mode = mode
        self.text = printed(program, *mode.split(), "--help")
        # An option with its value, as `--sessions N`, and with its short form, as `-h, --help`.
        self.options = {it.replace("<", "").replace(">", "") for it in re.findall(r"^ +(-.*?)  ", block(self.text, "Options:"), re.M)}
        self.arguments = set(re.findall(r"^ +[<[](\w+)[]>]", block(self.text, "Arguments:"), re.M))
        self.modes = rows(block(self.text, "Commands:"))

    def words(self):
        """The options, each form by itself and without its value."""
        return {form.split()[0] for it in self.options for form in it.split(", ")}

    def labels(self):
        """What a man page has to list, and nothing else: options, and what the help has in two columns or as a fault."""
        if not self.mode:
            return self.options | self.modes | rows(block(self.text, "Exit status:")) | set(re.findall(r"`(topichub: [a-z ]+)`", self.text))
        return self.options | {it for it in rows(self.text) if not it.startswith(("-", "<", "["))}

    def numbers(self):
        return set(re.findall(r"\d{2,}", self.text))

    def example(self):
        """The lines of a schedule with their replies."""
        return set(re.findall(r"^  ([a-z]+ [A-Z]+ .* {2,}\S.*)$", self.text, re.M))


# ---- man pages

def plain(words):
    """A label of mdoc as it reads: `Fl h , Fl -help` is `-h, --help`."""
    shown, dash = [], ""
    for word in words:
        if word in ("Ic", "Cm", "Ar", "Fl"):
            dash = "-" if word == "Fl" else ""
        elif word == ",":
            shown[-1] += ","
        else:
            shown.append(dash + word)
    return " ".join(shown)


class Page:
    """A man page by its source."""

    def __init__(self, mode):
        self.path = os.path.join(PAGES, f"topichub-{mode}.1" if mode else "topichub.1")
        with open(self.path, encoding="utf-8") as file:
            self.text = file.read()
        labels = [line.split()[1:] for line in self.text.splitlines() if line.startswith(".It ")]
        # The items of FILES are paths and arguments, and those of plain lists have no label.
        self.labels = {plain(words) for words in labels if words and words[0] not in ("Pa", "Ar")}

    def has_argument(self, name):
        return re.search(rf"^\.Ar {name}$", self.text, re.M) is not None

    def numbers(self):
        return set(re.findall(r"\d{2,}", self.text))


def pages():
    return sorted(glob.glob(os.path.join(PAGES, "*.1")))


def complaints(path):
    """What `mandoc` and `man` complain of in a page, for each of them that is installed."""
    if shutil.which("mandoc"):
        # It looks for the pages that are referred to where it is run.
        yield "mandoc", subprocess.run(["mandoc", "-Tlint", os.path.basename(path)], cwd=PAGES, stdout=subprocess.PIPE, text=True,
                                       timeout=PATIENCE).stdout
    if shutil.which("man") and shutil.which("groff"):
        environment = dict(os.environ, LC_ALL="C.UTF-8", MANROFFSEQ="", MANWIDTH="80")
        words = ["man", "--warnings", "-E", "UTF-8", "-l", "-Tutf8", "-Z", path]
        yield "man", subprocess.run(words, env=environment, stdout=subprocess.DEVNULL, stderr=subprocess.PIPE, text=True,
                                    timeout=PATIENCE).stderr


# ---- completions

def completion(shell):
    return os.path.join(COMPLETIONS, f"topichub.{shell}")


def long_options(shell):
    """The long options that stand anywhere in a completion."""
    with open(completion(shell), encoding="utf-8") as file:
        text = file.read()
    pattern = r"^complete .* -l ([a-z-]+)" if shell == "fish" else r"(?<![\w-])--([a-z-]+)"
    return {f"--{name}" for name in re.findall(pattern, text, re.M)}


def offered(shell, line):
    """What the shell offers at the end of the line."""
    words = {
        "bash": ["bash", "--norc", "-c", IN_BASH, "completed"],
        "zsh": ["zsh", "-f", os.path.join(ROOT, "checks", "completed.zsh")],
        "fish": ["fish", "--no-config", "-c", IN_FISH],
    }[shell]
    told = subprocess.run([*words, completion(shell), line], stdin=subprocess.DEVNULL, stdout=subprocess.PIPE, text=True, check=True,
                          timeout=PATIENCE).stdout
    # fish tells what each is for behind a tab.
    return {row.partition("\t")[0] for row in told.splitlines() if row}
