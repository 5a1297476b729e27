"""What tools/release makes of the program and its files, beside the tarball: a man page, completion for bash, and a
package for Debian.
"""

import gzip
import os
import pathlib
import re
import subprocess
import tempfile

HERE = pathlib.Path(__file__).resolve().parent
ARCHITECTURES = {"x86_64": "amd64", "aarch64": "arm64"}
UNITS = "usr/lib/systemd/system"
GUIDES = "usr/share/doc/remoted"
MAN = "usr/share/man/man1/remoted.1.gz"
COMPLETION = "usr/share/bash-completion/completions/remoted"
# What stands elsewhere where a package has it.
PLACES = {b"/usr/local/lib/remoted": b"/usr/lib/remoted", b"/usr/local/bin/remoted": b"/usr/bin/remoted"}

HEADING = re.compile(r"^(\S.*):$")
OPTION = re.compile(r"^ +((?:-|<)\S.*?|\w+)(?:  +(\S.*))?$")


def help_of(program):
    """What --help says: of the program under "", and of each of its commands."""
    say = lambda *words: subprocess.check_output([str(program), *words, "--help"], text=True)
    found = {"": say()}
    listed = found[""].split("Commands:\n")[1].split("\n\n")[0]
    for name in re.findall(r"^  (\w+)", listed, re.MULTILINE):
        if name != "help":
            found[name] = say(name)
    return found


def escaped(text):
    text = text.replace("\\", "\\e").replace("-", "\\-")
    return f"\\&{text}" if text.startswith((".", "'")) else text


def roff(text):
    """The text of a --help in the words of man pages: a heading, options with what they are, or lines as they stand."""
    lines = []
    for line in text.rstrip().splitlines():
        heading, option = HEADING.match(line), OPTION.match(line)
        if heading:
            lines += [".SS " + escaped(heading.group(1))]
        elif line.startswith("Usage: "):
            lines += [".PP", ".B " + escaped(re.sub(r"^Usage: \S+", "remoted", line))]
        elif option and (option.group(2) or option.group(1)[0] in "-<"):
            lines += [".TP", ".B " + escaped(option.group(1))] + [escaped(each) for each in option.groups()[1:] if each]
        elif line.startswith(" "):
            lines += [escaped(line.strip()), ".br"]
        else:
            lines += [".PP", escaped(line)] if line else []
    return lines


def man_page(helps, version):
    lines = [f'.TH REMOTED 1 "" "remoted {version}"']
    lines += [".SH NAME", "remoted \\- remote build cache and executor for Bazel"]
    lines += [".SH DESCRIPTION", *roff(helps[""])]
    for name, text in helps.items():
        lines += [f'.SH "REMOTED {name.upper()}"', *roff(text)] if name else []
    team = "the server of a team, for remoted@TEAM.service, which runs as remoted-TEAM"
    lines += [".SH FILES", ".TP", ".B /etc/remoted/TEAM.conf", escaped(team)]
    lines += [".TP", f".B /{GUIDES}", "the guides: USING.md, DEPLOYING.md, WATCHING.md, BAZEL.md"]
    return "\n".join(lines) + "\n"


def completion(helps):
    """Completion for bash: commands, their options, and files where an option or a command takes one."""
    options = {name: re.findall(r"^ +(?:-\w, )?(--[\w-]+)( <)?", text, re.MULTILINE) for name, text in helps.items()}
    valued = sorted({option for found in options.values() for option, value in found if value})
    listed = lambda name: " ".join(option for option, _ in options[name])
    cases = "\n".join(f"    {name}) options='{listed(name)}' ;;" for name in options if name)
    return f"""# completion of bash for remoted; what is not listed here, as values, is completed as a file
_remoted() {{
    local word=${{COMP_WORDS[COMP_CWORD]}} options=
    COMPREPLY=()
    case ${{COMP_WORDS[COMP_CWORD - 1]}} in
    {"|".join(valued)}) return ;;
    esac
    case ${{COMP_WORDS[1]}} in
{cases}
    esac
    if [ "$COMP_CWORD" -eq 1 ]; then options='{" ".join(name for name in helps if name)} {listed("")}'; fi
    mapfile -t COMPREPLY < <(compgen -W "$options" -- "$word")
}}
complete -o default -F _remoted remoted
"""


def placed(content):
    """A text with the paths of the package."""
    for old, new in PLACES.items():
        content = content.replace(old, new)
    return content


def files_of_package(files, helps, version):
    """The files of the package by their paths, with whether each may be run, of those of the tarball."""
    found = {}
    for name, (content, is_program) in files.items():
        folder, _, last = name.rpartition("/")
        if name == "remoted":
            found["usr/bin/remoted"] = (content, True)
        elif folder == "launchers":
            found[f"usr/lib/remoted/{last}"] = (placed(content), is_program)
        elif last.endswith(".service"):
            found[f"{UNITS}/{last}"] = (placed(content), False)
        elif folder == "deploy":
            found[f"{GUIDES}/examples/{last}"] = (placed(content), False)
        elif name != "SHA256SUMS":
            found[f"{GUIDES}/{'copyright' if name == 'LICENSE' else last}"] = (content, False)
    packed = gzip.compress(man_page(helps, version).encode(), mtime=0)
    found[MAN] = (packed, False)
    found[COMPLETION] = (completion(helps).encode(), False)
    return found


def debian_package(path, files, told, moment):
    """Writes a package: its files, and what its control file is told."""
    with tempfile.TemporaryDirectory() as folder:
        root = pathlib.Path(folder, "root")
        for name, (content, is_program) in files.items():
            put(root / name, content, is_program)
        (root / "etc/remoted").mkdir(parents=True)
        size = sum(len(content) for content, _ in files.values()) // 1024 + 1
        control = (HERE / "debian/control").read_text()
        for name, value in {**told, "SIZE": size, "ARCHITECTURE": ARCHITECTURES[os.uname().machine]}.items():
            control = control.replace(f"@{name}@", str(value))
        put(root / "DEBIAN/control", control.encode(), False)
        for name in ["postinst", "prerm", "postrm"]:
            put(root / "DEBIAN" / name, (HERE / "debian" / name).read_bytes(), True)
        for each in [root, *root.rglob("*")]:
            if each.is_dir():
                each.chmod(0o755)
        words = ["dpkg-deb", "--root-owner-group", "--build", str(root), str(path)]
        environment = {**os.environ, "SOURCE_DATE_EPOCH": str(moment)}
        subprocess.run(words, check=True, stdout=subprocess.DEVNULL, env=environment)


def put(path, content, is_program):
    path.parent.mkdir(parents=True, exist_ok=True)
    path.write_bytes(content)
    path.chmod(0o755 if is_program else 0o644)
