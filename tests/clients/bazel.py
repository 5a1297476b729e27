"""Starts Debian's Bazel (bazel-bootstrap, 4.2.3) for the scripts, and reads what it says."""

import hashlib
import os
import re
import subprocess

# A rule with a directory as its output: a file of its own, one in a folder below, and one that all such rules share.
DIRECTORY_RULE = """
def _impl(ctx):
    out = ctx.actions.declare_directory(ctx.label.name)
    ctx.actions.run_shell(
        outputs = [out],
        inputs = ctx.files.srcs,
        command = "mkdir -p $1/below/deep && cat $2 > $1/below/deep/copy && echo $3 > $1/name && echo same > $1/below/same",
        arguments = [out.path, ctx.files.srcs[0].path, ctx.label.name],
    )
    return [DefaultInfo(files = depset([out]))]

directory = rule(implementation = _impl, attrs = {"srcs": attr.label_list(allow_files = True)})
"""

# What Bazel would load from the net; these rules need no more of it.
STUBS = {
    "rules_cc/WORKSPACE": "",
    "rules_cc/cc/BUILD": "",
    "rules_cc/cc/defs.bzl": "".join(
        f"{name} = native.{name}\n"
        for name in ["cc_library", "cc_binary", "cc_test", "cc_import", "cc_toolchain", "cc_toolchain_suite"]
    ),
    "rules_java/WORKSPACE": "",
    "rules_java/java/BUILD": "",
    "rules_java/java/defs.bzl": "".join(
        f"java_{name} = native.java_{name}\n"
        for name in ["binary", "import", "library", "runtime", "toolchain", "package_configuration", "plugin", "test"]
    ),
    "remote_coverage_tools/WORKSPACE": "",
    "remote_coverage_tools/BUILD": "filegroup(name = 'coverage_report_generator', visibility = ['//visibility:public'])\n",
}


def overrides(folder):
    """The flags by which Bazel takes these stubs, which are in `stubs` of this folder."""
    names = dict.fromkeys(name.split("/")[0] for name in STUBS)
    return [f"--override_repository={name}={folder}/stubs/{name}" for name in names]


def make_files(folder, files):
    """Makes files of these texts; one whose name ends in `.sh` may be run."""
    for name, text in files.items():
        path = os.path.join(folder, name)
        os.makedirs(os.path.dirname(path), exist_ok=True)
        with open(path, "w") as file:
            file.write(text)
        if name.endswith(".sh"):
            os.chmod(path, 0o755)


class Counts:
    """How many actions ran, and how many of them came from the cache, as Bazel says."""

    def __init__(self, told):
        line = re.search(r"INFO: (\d+) process(?:es)?: (.*)\.", told)
        if line is None:
            raise SystemExit(f"Bazel tells no counts:\n{told}")
        self.kinds = {kind: int(count) for count, kind in re.findall(r"(\d+) ([a-z][a-z -]*)", line[2])}
        self.internal = self.kinds.pop("internal", 0)
        self.hits = self.kinds.get("remote cache hit", 0)
        self.run = sum(self.kinds.values()) - self.hits
        self.warnings = re.findall(r"WARNING: .*", told)


class Bazel:
    """Bazel with an output base of its own in a workspace. Its server ends with `with`."""

    def __init__(self, folder, workspace, base, program="bazel"):
        self.workspace, self.base = workspace, os.path.join(folder, base)
        self.words = [program, f"--output_user_root={folder}/root", f"--output_base={folder}/{base}"]
        self.words += ["--nohome_rc", "--noworkspace_rc", "--max_idle_secs=60", "--local_startup_timeout_secs=600"]

    def __enter__(self):
        return self

    def __exit__(self, *_):
        subprocess.run([*self.words, "shutdown"], cwd=self.workspace, capture_output=True)

    def run(self, word, *flags, seconds=None):
        """The status and all that Bazel says."""
        words = [*self.words, word, "--color=no", "--curses=no", *flags]
        done = subprocess.run(words, cwd=self.workspace, capture_output=True, text=True, timeout=seconds)
        return done.returncode, done.stdout + done.stderr

    def processor_seconds(self):
        """What its server took of the processors, and all that this has started and that has ended."""
        with open(os.path.join(self.base, "server", "server.pid.txt")) as file:
            number = file.read().strip()
        with open(f"/proc/{number}/stat") as stat:
            words = stat.read().rpartition(")")[2].split()
        return sum(map(int, words[11:15])) / os.sysconf("SC_CLK_TCK")

    def outputs(self):
        return os.path.realpath(os.path.join(self.workspace, "bazel-bin"))


def contents(folder):
    """The hash of each file below a folder."""
    found = {}
    for path, _, names in os.walk(folder):
        for name in names:
            # what has paths of this machine in it
            if name.endswith((".params", "MANIFEST", "_manifest")):
                continue
            with open(os.path.join(path, name), "rb") as file:
                found[os.path.relpath(os.path.join(path, name), folder)] = hashlib.sha256(file.read()).hexdigest()
    return found
