"""The programs: the proved one, and the plain Rust ones that are built here."""
import glob
import os
import shutil
import subprocess
import sys

HERE = os.path.dirname(os.path.abspath(__file__))
TOP = os.path.dirname(HERE)
PROVED = os.path.join(TOP, "crates", "wilfjodi", "out", "wilfjodi")
PLAIN = os.path.join(HERE, "plain", "target", "release", "plain")
# Where Debian's packages of Rust crates lie (librust-serde-json-dev).
REGISTRY = "/usr/share/cargo/registry"


def say(text):
    print(text, file=sys.stderr, flush=True)


def proved(path):
    """The path of the proved program, which is built by the script at the top where no other was given."""
    if path:
        return os.path.abspath(path)
    say("building the proved program")
    script = os.path.join(TOP, "replay")
    example = os.path.join(TOP, "examples", "two_messages.transcript")
    subprocess.run([script, "--proved", example], check=True, stdout=subprocess.DEVNULL)
    return PROVED


def benchmarks(path):
    """The path of the program that reads benchmarks, a line each, which is built here where no other was given."""
    if path:
        return os.path.abspath(path)
    say("building the program of the benchmarks")
    folder = os.path.join(TOP, "crates", "benchmarks")
    subprocess.run(["rt", "run"], check=True, cwd=folder, stdin=subprocess.DEVNULL, stdout=subprocess.DEVNULL)
    return os.path.join(folder, "out", "benchmarks")


def plain():
    """The path of the plain program, or None where cargo or Debian's crate is missing."""
    if not shutil.which("cargo") or not glob.glob(os.path.join(REGISTRY, "serde_json-*")):
        say("the plain program is skipped: it needs cargo and Debian's package librust-serde-json-dev")
        return None
    say("building the plain program")
    replaced = ["source.crates-io.replace-with='debian'", f"source.debian.directory='{REGISTRY}'"]
    command = ["cargo", "build", "--release", "--offline", "--quiet"]
    for setting in replaced:
        command += ["--config", setting]
    subprocess.run(command, check=True, cwd=os.path.join(HERE, "plain"))
    return PLAIN


def plain_alone(folder):
    """The path of the plain program of a folder that needs cargo alone, or None where that is missing."""
    if not shutil.which("cargo"):
        say(f"the plain {folder} are skipped: they need cargo")
        return None
    say(f"building the plain {folder}")
    subprocess.run(["cargo", "build", "--release", "--offline", "--quiet"], check=True, cwd=os.path.join(HERE, folder))
    return os.path.join(HERE, folder, "target", "release", folder)
