"""Odd commands, which `launchers_words.py` has run with launchers and without one.

Words, names of variables, of folders and of programs that mean something to shells, `srun`, `env`, `xargs`, `bwrap` or
`setpriv`; words that are long, or many; and all ends of a program.
"""

from executing import PATH, Executable, Link

# Prints NULs between: its words as the kernel has them, its folder from that of the run on, its variables, the mask of
# modes, and what comes from its standard input.
TEXT = """import os
def at(name):
    with open(name, "rb") as file:
        return file.read()
here, up = os.getcwdb(), b""
while not os.path.exists(b"./" + up + b".top"):
    up += b"../"
words = at("/proc/self/cmdline").split(b"\\0")[3:-1]
top = len(os.path.realpath(b"./" + up))
mask = os.umask(0)
print(len(words), b"\\0".join(words), here[top:], at("/proc/self/environ"), oct(mask), os.read(0, 9), sep="\\0")
"""
SHOWS = ["/usr/bin/python3", "-ISc", TEXT]
SHOWING = Executable(b"#!/usr/bin/python3 -IS\n" + TEXT.replace("[3:-1]", "[2:-1]").encode())
TOP = {".top": b""}

SIGNS = [":", "--", "-", "!", ";", "{}", "{", "%", "%n", "%s", "%j", "\\", "\\n", "\\0", "'", '"', "`", "`id`", "$", "$HOME"]
SIGNS += ["$(id)", "$@", "${x}", "*", "?", "[", "[a-z]", "~", "~root", "#", "#x", "&", "&&", "|", "||", ">x", "<", "<in"]
SIGNS += [">>", "2>&1", "(", ")", "^", ","]
BLANKS = ["", " ", "\t", "\n", "\r", "a\nb", "\na", "a\n", " a", "a ", ": ", " :", ":\n", "::", "\\\n", "\\c", "-\n"]
EQUALS = ["=", "A=B", "=B", "A=", "--export=ALL", "--prolog=/bin/sh", "--het-group=0", "--reuid=0", "--chdir=/"]
EQUALS += ["--split-string=x"]
OPTIONS = ["-S", "-i", "-u", "-0", "-a", "-n", "-N2", "-I", "-I{}", "-x", "-r", "-E", "-E:", "-c", "-e", "-v", "-h", "-V"]
OPTIONS += ["--help", "--version", "--args", "--bind", "--ro-bind", "--unshare-all", "--add-seccomp-fd", "--json-status-fd"]
OPTIONS += ["--chdir", "--as-pid-1", "--multi-prog", "--pdeathsig", "--unset", "--default-signal", "--null", "--kept"]
OPTIONS += ["KEPT", "--fork", "--max-args", "@x", "+x", "9"]
LETTERS = ["\x01", "\x1b[0m", "\x7f", "\x80", "\u00e9", "e\u0301", "\u65e5\u672c", "\U0001f600", "\u202e", "\ufeff"]
LETTERS += ["\ud7ff", "\U0010ffff"]
WORDS = [*SIGNS, *BLANKS, *EQUALS, *OPTIONS, *LETTERS]

OWN_NAMES = "LD_PRELOAD LD_LIBRARY_PATH LD_AUDIT LD_BIND_NOW GLIBC_TUNABLES IFS BASH_ENV ENV PS4 SHELLOPTS BASHOPTS CDPATH"
OWN_NAMES += " PWD OLDPWD HOME SHLVL _ PPID OPTIND LC_ALL LANG TMPDIR POSIXLY_CORRECT STARTED_BY_ANOTHER MARK"
OWN_NAMES += " SLURM_CONF SLURM_JOB_ID SLURM_NTASKS SRUN_EXPORT_ENV SLURM_EXPORT_ENV SLURM_HET_SIZE SLURM_STEP_ID"
OWN_NAMES += " SLURM_PROLOG SLURM_TASK_PROLOG root directory aside code failed next"

# For each of these the dynamic loader says that it finds no such file.
LOADED = ["LD_PRELOAD", "LD_AUDIT"]


class Odd:
    """A command with its inputs. `known` names the line of what is known to differ, where it is one of those."""

    def __init__(self, what, words, known=None, tree=None, **given):
        self.what, self.words, self.known = what, words, known
        self.tree, self.given = {**TOP, **(tree or {})}, given


def by_name(*variables):
    """Variables in the order of their names, as the protocol has them."""
    return sorted(variables, key=lambda each: each[0].encode())


def short(text):
    return repr(text) if len(text) < 60 else f"{text[:20]!r} .. of {len(text.encode())} bytes"


def words():
    """Each word alone, first, in the middle and last, for programs that print what they get."""
    prints, shell = ["/usr/bin/printf", "%s\\0"], ["/bin/sh", "-c", 'printf "%s\\0" "$#" "$@"', "sh"]
    for each in WORDS:
        yield Odd(f"{short(each)} alone", [*SHOWS, each])
        yield Odd(f"{short(each)} first and last", [*prints, each, "a", each])
        yield Odd(f"{short(each)} in the middle", [*shell, "a", each, "b"])
    yield Odd("all of them", [*SHOWS, *WORDS])
    yield Odd("all of them, to another program", [*prints, *WORDS])
    yield Odd("no variables", ["/usr/bin/env", "-0"], variables=[])
    yield Odd("no further word", SHOWS)


def programs():
    """Files that have these words as their names, by a path and by `PATH`; and what is no program."""
    names = [each for each in WORDS if each and "/" not in each]
    for at, each in enumerate([*names, "n" * 255]):
        known, tree = "equals" if "=" in each else None, {each: SHOWING}
        before = [("A", "-")] if at % 2 else []
        yield Odd(f"./ and {short(each)}", [f"./{each}", "x"], known, tree)
        yield Odd(f"{short(each)} by PATH", [each, each], known, tree, variables=[*before, ("PATH", ".")])
    yield Odd("a word - that stands first", ["-", "/bin/true"], "missing", variables=[])
    missing = ["", "-", "--", ":", "!", "{}", "-S", "--help", "--version", "/bin/true x", "/no/such", "\n", "/", "n" * 5000]
    for each in missing:
        yield Odd(f"no program {short(each)}", [each, "/bin/true"], "missing")
    yield Odd("no program A=B", ["A=B", "/bin/true"])
    yield Odd("no word at all", [])
    yield Odd("a program in a folder of such a name", ["./{} :/$(id)"], None, {"{} :": {"$(id)": SHOWING}})
    yield Odd("a link to a program", ["./link", "x"], None, {"show": SHOWING, "link": Link("show")})
    yield Odd("a link to no program", ["./link", "x"], "missing", {"link": Link("none")})
    yield Odd("a folder", ["./d", "x"], "missing", {"d": {}})
    yield Odd("a file that may not be run", ["./file", "x"], "missing", {"file": b"#!/bin/sh\n"})
    no_such = {"file": Executable(b"#!/no/such\n")}
    yield Odd("a program for another program that is not there", ["./file"], "missing", no_such)
    yield Odd("lines without a program's name", ["./file", ":"], None, {"file": Executable(b'echo "$0" "$@"\n')})
    yield Odd("nothing in it", ["./file", ":"], None, {"file": Executable(b"")})


def paths():
    """Where programs are looked for."""
    tree = {"show": SHOWING, "d e": {"show": SHOWING}, "~": {"show": SHOWING}, "no": {"show": b"x"}, "file": b""}
    found = ["", ":", ".", "./", "/no:", ":/no", "/no::/no", "d e", "~", "no:d e", "file:~", "/usr/bin:.", "\n:."]
    for each in [*found, "x" * 4096 + ":."]:
        yield Odd(f"PATH is {short(each)}", ["show", ":"], None, tree, variables=[("PATH", each)])
    for each in ["/no", "no", "$HOME", "*", "/usr/bin", "'.'", "d\\ e", "show"]:
        yield Odd(f"PATH is {short(each)}", ["show", ":"], "missing", tree, variables=[("PATH", each)])
    yield Odd("no PATH", ["echo", ":"], variables=[])
    yield Odd("no PATH, and a program that is beside", ["show"], "missing", tree, variables=[])


def variables():
    """Names and values."""
    names = [each for each in WORDS if each and "=" not in each] + OWN_NAMES.split() + ["n" * 1000, "a b", "BASH_FUNC_cd%%"]
    for each in names:
        known, given = "loader" if each in LOADED else None, by_name(("A", "1"), (each, "./x :"), ("Z", "2"))
        yield Odd(f"a variable {short(each)}", [*SHOWS, ":"], known, variables=given)
    values = [each for each in WORDS if each not in LETTERS] + ["v" * 100_000, "a=b=c", "() { :; }; echo x"]
    yield Odd("all values", [*SHOWS, ":"], variables=by_name(*((f"V{at}", each) for at, each in enumerate(values))))
    for each in [*EQUALS, *BLANKS, "v" * 100_000, "v" * 131_067, "() { :; }; echo x"]:
        yield Odd(f"a value {short(each)}", [*SHOWS, ":"], variables=[("A", each), ("B", each)])
    tree = {"d": {}, "e": b"echo once >>out\n"}
    for each in ["BASH_ENV", "ENV", "PS4", "IFS", "CDPATH", "SHELLOPTS", "POSIXLY_CORRECT", "PWD", "LD_PRELOAD"]:
        value = {"CDPATH": "/usr:.", "SHELLOPTS": "xtrace", "IFS": ":", "PS4": "$(echo x >>out)"}.get(each, "./e")
        known, given = "loader" if each in LOADED else None, {"variables": by_name((each, value), PATH), "files": ["out"]}
        for shell in ["/bin/bash", "/bin/sh"]:
            text = "cd d >in; cd .. >in; x=a:b; echo $x >>out"
            yield Odd(f"{each} for {shell}", [shell, "-c", text, "sh"], known, tree, **given)
    yield Odd("a variable twice", [*SHOWS, ":"], variables=[("A", "1"), ("A", "3"), ("B", "2")])
    yield Odd("a variable twice, others between", [*SHOWS, ":"], "order", variables=[("A", "1"), ("B", "2"), ("A", "3")])
    yield Odd("variables in another order", [*SHOWS, ":"], "order", variables=[("Z", "1"), ("-", "2"), ("A", "3")])
    yield Odd("no name", [*SHOWS, ":"], variables=[("", "1")])
    yield Odd("a name with =", [*SHOWS, ":"], variables=[("A=B", "1")])
    yield Odd("many variables", [*SHOWS, ":"], variables=[(f":{at:05}", "--") for at in range(3000)])
    script = 'cd d >in; cd ..; set -- a:b; printf "%s," $1 "$#" >out; /usr/bin/env -0 | cut -z -d = -f 1'
    shell = ["/bin/bash", "-c", script, "bash"]
    yield Odd("bash, and what it has", shell, None, tree, variables=[("CDPATH", "."), ("IFS", ":")], files=["out"])


def directories():
    """Working directories and outputs."""
    names = [each for each in WORDS if each and "/" not in each] + ["d" * 255, "a b", "d" * 256]
    script = 'cat in; echo "$1" >out; mkdir -p "$1/t"; echo 2 >"$1/t/f"; echo 3 >"$1/o"; cd ..; ls -A; pwd -P | wc -l'
    for at, each in enumerate(names):
        inner = {"tree": {each: {"in": b"given\n"}}} if len(each.encode()) < 256 else {}
        outputs = {"files": ["out", f"{each}/o"], "directories": [f"{each}/t"]} if at % 2 else {"paths": ["out", each]}
        yield Odd(f"in {short(each)}", ["/bin/sh", "-c", script, "sh", each], folder=each, **inner, **outputs)
    for count, name in [(60, ":"), (190, "d"), (191, "d"), (192, "d"), (15, "d" * 250), (16, "d" * 250), (17, "d" * 250)]:
        folder = "/".join([name] * count)
        many = f"{count} times {short(name)}"
        yield Odd(f"in {many}", ["/bin/sh", "-c", "echo 1 >out; ls -A"], folder=folder, files=["out"])
        looking = "import os; print(len(os.listdir('.')), len(os.listdir('..')))"
        yield Odd(f"in {many}, which looks up", ["/usr/bin/python3", "-ISc", looking], folder=folder)
    for each in ["..", "a/..", "/", "/a", "a//b", "./a", "a/.", ".", "a/", "-/-", "--/:", "link", "link/a"]:
        yield Odd(f"in {short(each)}", [*SHOWS, ":"], tree={"link": Link("/etc")}, folder=each)


def sizes():
    """Words that are long, and many of them."""
    for size in [100_000, 131_000, 131_071, 131_072]:
        yield Odd(f"a word of {size}", [*SHOWS, "a", "w" * size, "b"])
        yield Odd(f"a variable of {size}", [*SHOWS, ":"], variables=[("A", "w" * (size - 2))])
        yield Odd(f"a word of {size} letters", [*SHOWS, "\u00e9" * (size // 2), ":"])
    for count in [1_000, 5_000, 8_800]:
        yield Odd(f"{count} words", [*SHOWS, *(str(at) for at in range(count))])
    for count in [9_000, 20_000, 100_000]:
        yield Odd(f"{count} words", [*SHOWS, *(":" for _ in range(count))], "many")
    yield Odd("1.8 MB of words", [*SHOWS, *("w" * 130_000 for _ in range(14))])
    large = [(f"V{at}", "v" * 99_999) for at in range(9)]
    yield Odd("1.8 MB of words and variables", [*SHOWS, *("w" * 100_000 for _ in range(9))], variables=large)
    yield Odd("2.2 MB of words", [*SHOWS, *("w" * 130_000 for _ in range(17))])


def good(mark=""):
    """Commands that are good, and such as would write this file outside of a sandbox."""
    evil = f"echo evil >{mark}"
    shell = lambda text, *more: ["/bin/sh", "-c", text, *more]
    yield Odd("cut -d :", shell("echo a:b | cut -d : -f 1"))
    yield Odd("cut", ["/usr/bin/cut", "-d", ":", "-f", "1", "in"], None, {"in": b"a:b\n"})
    yield Odd("$#", shell("echo $#", ":", "x", "y"))
    yield Odd("echo", ["/bin/echo", "a", ":", "b"])
    finding = ["/usr/bin/find", ".", "-name", "*", "!", "-name", "a", "-exec", "echo", "{}", ";"]
    yield Odd("find", finding, None, {"a": b"", "b": b""})
    yield Odd("xargs", shell("echo a | xargs -I{} echo {} : {}"))
    yield Odd("sed", ["/usr/bin/sed", "-e", "s:a:b:", "-e", "$!d", "in"], None, {"in": b"a\nab\n"})
    yield Odd("env -S", ["/usr/bin/env", "-S", "A=B sh -c 'echo $A'"])
    yield Odd("test", ["/usr/bin/[", "a", "=", "a", "]"])
    yield Odd("expr", ["/usr/bin/expr", "ab", ":", "a"])
    for first in [[":"], ["a", ":"], [":", "-n1"], [":", "--"]]:
        yield Odd(f"{first}, and another program", ["/bin/true", *first, *shell(evil)])
    for each in ["--prolog=/bin/sh", "--epilog=/bin/sh", "--task-prolog=/bin/sh", "--bcast", "--multi-prog", "--export=ALL"]:
        yield Odd(f": and {each}", ["/bin/true", ":", each, "--", "-c", evil])
    for each in [f"$({evil})", f"`{evil}`", f"; {evil}", f"'; {evil}; '", f'"; {evil}; "', f"x\n{evil}\n", f"x\0{evil}"]:
        yield Odd(f"a word {each!r}", ["/bin/true", each])
        yield Odd(f"a value {each!r}", ["/bin/true"], variables=[("A", each)])
        yield Odd(f"a name {each!r}", ["/bin/true"], variables=[(each, "A")])
        yield Odd(f"a folder {each.replace('/', '%')!r}", ["/bin/true"], folder=each.replace("/", "%"))


def divided(mark, root):
    """Words that have just no room on a longer command line. Whatever hands them on in parts takes the rest for its own."""
    evil = [root, ".", "x", "/bin/sh", "-c", f"echo evil >{mark} #" + "x" * 570]
    size = lambda words: sum(len(each) + 9 for each in words)
    total = 2_096_400
    for at in range(2 * len(evil)):
        words = ["/bin/true", *["p"] * at]
        words += evil * ((total - size(words)) // size(evil))
        words.append("z" * max(0, total - size(words) - 9))
        yield Odd(f"{total} bytes, by {at}", words, "near")


def ends():
    """All codes, and ends by signals."""
    for code in range(256):
        yield Odd(f"exit code {code}", ["/bin/sh", "-c", f"exit {code}"])
    for number in [*range(1, 16), 16, 24, 25, 26, 27, 29, 30, 31, 34, 50, 64]:
        yield Odd(f"ended by signal {number}", ["/bin/bash", "-c", f"echo x; kill -{number} $$; sleep 9", "bash"])
        of_child = f"exec 2>in; (kill -{number} $BASHPID; sleep 9); echo $?"
        yield Odd(f"a child is ended by signal {number}", ["/bin/bash", "-c", of_child])
    # glibc's posix_spawn may leave its own two signals, 32 and 33, ignored.
    signals = "grep ^Sig[BIC] /proc/self/status | sed s/0000000180000000/0000000000000000/"
    yield Odd("signals that are held back or ignored", ["/bin/sh", "-c", signals])
    yield Odd("what is open", ["/bin/ls", "/proc/self/fd"])
    limits = "ulimit -a | grep -v -E 'coredump|process'; ulimit -H -a | grep -v -E 'coredump|process'"
    yield Odd("limits", ["/bin/sh", "-c", limits])
    leads = "import os; print(os.getsid(0) == os.getpgid(0), os.nice(0), os.isatty(0))"
    yield Odd("who leads", ["/usr/bin/python3", "-ISc", leads])
    yield Odd("SIGPIPE", ["/bin/bash", "-c", "yes | head -n 1; echo ${PIPESTATUS[@]}"])


KINDS = [words, programs, paths, variables, directories, sizes, good, divided, ends]
KINDS = {each.__name__: each for each in KINDS}
