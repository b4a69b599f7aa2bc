"""What several tools read of the repository: its crates, what each stands on, and the table of minutes in docs/TIMES.md."""
import os
import re
import shutil

TOP = os.path.dirname(os.path.dirname(os.path.abspath(__file__)))
TIMES, END_OF_TIMES = "<!-- times -->", "<!-- end of times -->"
ROW = re.compile(r"^\| (\w+) \| ([\d.]+|–) \| ([\d.]+|–) \| ([\d.]+|–) \| (\d+|–) \|$", re.M)


def text_of(file):
    """Returns a file's text, or nothing where there is none."""
    if not os.path.isfile(file):
        return ""
    with open(file, encoding="utf-8") as it:
        return it.read()


def lines_of_crates(top=TOP):
    """Returns what each line of crates.txt says: a crate's name, with the names that it stands on, in the file's order."""
    found = {}
    for line in text_of(f"{top}/crates.txt").splitlines():
        head, colon, names = line.partition("#")[0].partition(":")
        if colon:
            found[head.split()[0]] = names.split()
    return found


def below(name, lines):
    """Returns the crates of the repository on which a crate stands, near or far, each after those on which it stands itself."""
    found = []
    for it in lines[name]:
        if it in lines:
            found += [one for one in [*below(it, lines), it] if one not in found]
    return found


def sources(folder, ending=".rt", parts=("src", "specs", "proofs")):
    """Returns the files of a crate that end so, sorted."""
    found = []
    for part in parts:
        for at, _, names in os.walk(f"{folder}/{part}"):
            found += [f"{at}/{name}" for name in names if name.endswith(ending)]
    return sorted(found)


def is_program(name, top=TOP):
    """Returns whether a crate is a program."""
    return os.path.isfile(f"{top}/crates/{name}/src/main.rt")


def has_tests(name, top=TOP):
    """Returns whether a crate has tests."""
    return any(re.search(r"#\s*\[[^]]*\btest\b", text_of(it)) for it in sources(f"{top}/crates/{name}"))


def edits_of(name, top=TOP):
    """Returns the files of a crate's must-fail edits, sorted."""
    folder = f"{top}/crates/{name}/must-fail"
    names = os.listdir(folder) if os.path.isdir(folder) else []
    return sorted(f"{folder}/{it}" for it in names if it.endswith(".edit"))


def minutes(top=TOP):
    """Returns the table of docs/TIMES.md: for each crate the minutes of its proof, tests and edits, 0 where it has none."""
    text = text_of(f"{top}/docs/TIMES.md")
    table = text.partition(TIMES)[2].partition(END_OF_TIMES)[0]
    read = lambda it: 0.0 if it == "–" else float(it)
    return {row[1]: tuple(map(read, row.groups()[1:4])) for row in ROW.finditer(table) if row[1] != "all"}


def write(file, text, mode=0o644):
    """Writes a file, with the folders that it stands in."""
    os.makedirs(os.path.dirname(file), exist_ok=True)
    with open(file, "w", encoding="utf-8") as it:
        it.write(text)
    os.chmod(file, mode)


def copied(names, folder, *more):
    """Copies crates and those below them (src, specs and proofs) into a folder, with the lines of crates.txt for them, and more lines."""
    lines = lines_of_crates()
    taken = list(dict.fromkeys(it for name in names for it in [*below(name, lines), name]))
    for crate in taken:
        for part in ("src", "specs", "proofs"):
            if os.path.isdir(f"{TOP}/crates/{crate}/{part}"):
                shutil.copytree(f"{TOP}/crates/{crate}/{part}", f"{folder}/crates/{crate}/{part}")
    told = [f"{it}: {' '.join(lines[it])}" for it in taken]
    write(f"{folder}/crates.txt", "\n".join(["# Each crate with what it stands on, lowest first.", *told, *more, ""]))
