"""What a Debian package of the program has: man pages and completions with all that help tells, the files at their
places, and units that systemd reads."""
import os
import re
import shutil
import subprocess
import tempfile

from served import WAIT, in_time

ROOT = os.path.dirname(os.path.dirname(os.path.abspath(__file__)))
PACKAGING = os.path.join(ROOT, "packaging")

# A program whose commands have each two options more.
NEWER = """#!/bin/sh
case $1 in -*) exec "{program}" "$@" ;; esac
"{program}" "$@" | sed '/^  -h, --help/i\\
      --fresh <FILE>  Takes `a file`\\
      --tone <t>      Takes one of two [possible values: low, high]'
"""

BASH = """
. "$1"
shift
COMP_WORDS=("$@")
COMP_CWORD=$(($# - 1))
"_$1"
printf '%s\\n' "${COMPREPLY[@]}"
"""

# A shell of zsh in which the key of tabs writes what would be completed.
ZSH = """
zmodload zsh/zpty
zpty shell zsh -f -i
zpty -w shell "PS1= fpath=($1 \\$fpath) && autoload -U compinit && compinit -D -u && source $2"
zpty -r -m shell seen '*READY:now*'
for line in "${@:3}"; do
    zpty -w -n shell $'\\x15'"$line"$'\\t'
    zpty -r -m shell seen '*END:now*'
    print -r -- "LINE:$seen"
done
"""
ZSH_KEY = """
compadd() {
    if [[ ${@[1,(i)(-|--)]} == *-(O|A|D)\\ * ]]; then
        builtin compadd "$@"
        return
    fi
    local -a hits
    builtin compadd -A hits "$@"
    (($#hits)) && print -l -- HIT:${^hits}
}
show() { _main_complete; compstate[insert]= compstate[list]=; print END:now; }
zle -C show complete-word show
bindkey '^I' show
print READY:now
"""

# Words of a line, the last one under way, and what it may become; "some file" is a file of the folder.
COMPLETED = (
    ("sysr se", {"serve"}),
    ("sysr serve --loa", {"--load"}),
    ("sysr serve --load so", {"some file"}),
    ("sysr stop --control so", {"some file"}),
    ("sysr serve --load=so", {"some file"}),
    ("sysr serve --port ", set()),
    ("sysr explain --format ", {"text", "csv", "dot"}),
    ("sysr explain --format=", {"text", "csv", "dot"}),
    ("sysr explain --format csv why --cut-line d", {"drop"}),
    ("sysr help ex", {"explain"}),
    ("sysr explain w", {"why", "who"}),
    ("sysr run --fresh so", {"some file"}),
    ("sysr explain cut --tone ", {"low", "high"}),
)

FILES = {
    "etc/default/sysr": "-rw-r--r--",
    "usr/bin/sysr": "-rwxr-xr-x",
    "usr/lib/systemd/system/sysr.service": "-rw-r--r--",
    "usr/lib/systemd/system/sysr.socket": "-rw-r--r--",
    "usr/lib/sysusers.d/sysr.conf": "-rw-r--r--",
    "usr/share/bash-completion/completions/sysr": "-rw-r--r--",
    "usr/share/doc/sysr/changelog.gz": "-rw-r--r--",
    "usr/share/man/man1/sysr.1.gz": "-rw-r--r--",
    "usr/share/man/man8/sysr-serve.8.gz": "-rw-r--r--",
    "usr/share/zsh/vendor-completions/_sysr": "-rw-r--r--",
}


def output(*words, **more):
    done = subprocess.run(words, capture_output=True, text=True, timeout=WAIT, **more)
    if done.returncode != 0:
        raise ValueError(done)
    return done.stdout


def content(*path):
    with open(os.path.join(*path), encoding="utf-8") as file:
        return file.read()


def newer(program, folder):
    """The program with an option more."""
    path = os.path.join(folder, "newer")
    with open(path, "w", encoding="utf-8") as file:
        file.write(NEWER.format(program=program))
    os.chmod(path, 0o755)
    return path


def options(program):
    """Of each command of the program, by its words, the options that its help lists."""
    found, left = {}, [()]
    while left:
        words = left.pop()
        text = output(program, *words, "--help")
        found[words] = re.findall(r"^ +(?:-\w, )?(--[\w-]+)", text, re.MULTILINE)
        commands = re.search(r"^Commands:\n((?:  .*\n)*)", text, re.MULTILINE)
        names = re.findall(r"^  (\w+)", commands[1], re.MULTILINE) if commands else []
        left += [(*words, name) for name in names if name != "help"]
    return found


def below(page, command):
    """What a page says below the command, and what stands below that."""
    parts = re.split(r'^\.SS "sysr (\w+).*', page.replace("\\-", "-"), flags=re.MULTILINE)
    return "".join(text for word, text in zip(parts[1::2], parts[2::2]) if word == command)


def pages(program, check, folder):
    """The pages have each option of help, and are shown without a word of warning."""
    output(os.path.join(PACKAGING, "man"), program, folder)
    texts = {name: content(folder, name) for name in ("sysr.1", "sysr-serve.8")}
    for words, flags in options(program).items():
        page = "sysr-serve.8" if words == ("serve",) else "sysr.1"
        # (a question has the options of explain)
        about = texts[page].replace("\\-", "-") if words == ("serve",) or not words else below(texts[page], words[0])
        missing = [flag for flag in flags if f"\\fB{flag}\\fR" not in about and (flag != "--help" or not words)]
        check(f"{page} has all options of {words}", flags and not missing, missing or flags)
    for name in texts if shutil.which("man") else ():
        done = subprocess.run(["man", "--warnings", "-l", os.path.join(folder, name)], capture_output=True, text=True,
            timeout=WAIT)
        check(f"{name} is shown", (done.returncode, done.stderr) == (0, "") and "EXIT STATUS" in done.stdout, done)
    sections = re.findall(r'^\.SH "?([A-Z ]+)', texts["sysr-serve.8"], re.MULTILINE)
    wanted = ["NAME", "SYNOPSIS", "DESCRIPTION", "OPTIONS", "FILES", "EXIT STATUS", "SEE ALSO"]
    check("the sections of sysr-serve.8", sections == wanted, sections)
    at = re.findall(r" --(?:control|socket) %t(\S+)", content(PACKAGING, "sysr.service"))
    unnamed = [path for path in at if f"/run{path}" not in texts["sysr-serve.8"]]
    check("sysr-serve.8 names the sockets of the unit", at and not unnamed, unnamed or at)


def completed(check, name, seen):
    check(f"{name} completes", len(seen) == len(COMPLETED), seen)
    for (line, wanted), words in zip(COMPLETED, seen):
        check(f"{name} completes {line!r}", words == wanted, words)


def by_bash(folder, line):
    # (bash takes the sign in --option=value for a word)
    given = re.sub("=$", " =", re.sub("=(?=.)", " = ", line)).split(" ")
    words = ["bash", "-c", BASH, "bash", os.path.join(folder, "sysr.bash"), *given]
    return set(filter(None, output(*words, cwd=folder).split("\n")))


def by_zsh(folder, lines):
    key = os.path.join(folder, "key")
    with open(key, "w", encoding="utf-8") as file:
        file.write(ZSH_KEY)
    texts = output("zsh", "-fc", ZSH, "zsh", folder, key, *lines, cwd=folder).split("LINE:")[1:]
    return [{hit.strip().replace("\\", "") for hit in re.findall("HIT:(.*)", text)} for text in texts]


def completions(program, check, folder):
    """Both shells complete commands, options, values and files."""
    output(os.path.join(PACKAGING, "completions"), program, folder)
    with open(os.path.join(folder, "some file"), "w", encoding="utf-8"):
        pass

    lines = [line for line, _ in COMPLETED]
    completed(check, "bash", [by_bash(folder, line) for line in lines])
    if shutil.which("zsh") is None:
        print("no zsh: what it completes was not tried")
    else:
        completed(check, "zsh", by_zsh(folder, lines))


def package(program, check, folder):
    """The package has its files, with their modes, and the program as it is."""
    if shutil.which("dpkg-deb") is None or shutil.which("objdump") is None:
        print("no dpkg-deb, or no objdump: no package was made")
        return
    path = output(os.path.join(PACKAGING, "deb"), "--program", program, folder).strip()
    edition = output(program, "--version").split()[1]
    check("the package's name", os.path.basename(path).startswith(f"sysr_{edition}_"), path)
    listed = [line.split(maxsplit=5) for line in output("dpkg-deb", "-c", path).splitlines()]
    seen = {name[2:]: mode for mode, _, _, _, _, name in listed if not mode.startswith("d")}
    check("the package's files", seen == FILES, seen)
    check("the package's owners", {line[1] for line in listed} == {"root/root"}, listed)
    control, root = os.path.join(folder, "control"), os.path.join(folder, "root")
    output("dpkg-deb", "-e", path, control)
    output("dpkg-deb", "-x", path, root)
    check("the program in it", same(os.path.join(root, "usr/bin/sysr"), program), path)
    check("its file of words", content(control, "conffiles") == "/etc/default/sysr\n", content(control, "conffiles"))
    for script in ("postinst", "prerm", "postrm"):
        done = subprocess.run(["sh", "-n", os.path.join(control, script)], capture_output=True, timeout=WAIT)
        check(f"{script} is read", done.returncode == 0, done)
    field = output("dpkg-deb", "-f", path, "Depends")
    check("what it depends on", re.match(r"libc6 \(>= 2\.\d+\), systemd \|", field), field)
    unit = content(root, "usr/lib/systemd/system/sysr.service")
    called = re.findall(r"^Exec(?:Start|Stop)=-?(\S+)", unit, re.MULTILINE)
    check("what its unit calls", called == 2 * ["/usr/bin/sysr"], called)
    words = re.search(r'^Environment="(.*)=(.*)"$', unit, re.MULTILINE)
    check("the words that it shows", f'#{words[1]}="{words[2]}"\n' in content(root, "etc/default/sysr"), words[0])


def same(one, other):
    with open(one, "rb") as left, open(other, "rb") as right:
        return left.read() == right.read()


def units(program, check, folder):
    """systemd reads both units, with the programs where they are here, and finds nothing to say of them."""
    if shutil.which("systemd-analyze") is None:
        print("no systemd-analyze: the units were not verified")
        return
    paths = [os.path.join(folder, name) for name in ("sysr.service", "sysr.socket", "sysr-follower.service")]
    for path in paths:
        text = content(PACKAGING, os.path.basename(path)).replace("/usr/local/bin/sysr", program)
        with open(path, "w", encoding="utf-8") as made:
            made.write(text.replace("/usr/local/share/sysr/tools", os.path.join(os.path.dirname(PACKAGING), "tools")))
    words = ["systemd-analyze", "verify", "--man=no", *paths]
    done = subprocess.run(words, capture_output=True, text=True, timeout=WAIT)
    told = [line for line in (done.stdout + done.stderr).splitlines() if "sysr" in line]
    check("the units are verified", told == [], told)


def played(program, check):
    for test, with_more in ((pages, True), (completions, True), (package, False), (units, False)):
        with tempfile.TemporaryDirectory() as folder:
            in_time(test.__name__, check, lambda: test(newer(program, folder) if with_more else program, check, folder))
