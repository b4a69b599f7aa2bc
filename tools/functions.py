"""The functions of the library crates, as their sources have them: names, arguments, clauses, and what is said of them."""
import os
import re

import repository

ITEM = re.compile(r"pub (?:struct|enum|type|trait|const|static|fn|unsafe fn|const fn) (\w+)")
FN = re.compile(r"( *)(pub )?(?:const |unsafe )*fn (\w+)")
SCOPE = re.compile(r"(impl\b|pub trait |trait )")


class Module:
    """What a file declares: its items, its modules and what it brings in, each by name, with whether it is public."""

    def __init__(self):
        self.items, self.mods, self.uses, self.aliases, self.globs = {}, {}, {}, {}, []


class Function:
    """A function as it is declared: where, in which type or trait, what is said of it, and its kind: public, private or of a trait."""

    def __init__(self, crate, module, scope, name, signature, clauses, doc, place, kind):
        self.crate, self.module, self.scope, self.name = crate, module, scope, name
        self.signature, self.clauses, self.doc, self.place, self.kind = signature, clauses, doc, place, kind

    def first_sentence(self):
        """Returns the first sentence of its doc comment."""
        text = " ".join(self.doc).partition("\0")[0].strip()
        found = re.match(r"(.+?[.?!])(?:\s+(?=[A-Z`\[(])|$)", text)
        return re.sub(r"\[(`[^`]*`)\](?:\([^)]*\))?", r"\1", found[1] if found else text)


def used(tree, before=()):
    """Yields what a use names, each as its name here and its path."""
    tree = tree.strip()
    head, brace, rest = tree.partition("{")
    if not brace:
        path, _, name = tree.partition(" as ")
        parts = [*before, *[it for it in path.strip().split("::") if it]]
        if parts and parts[-1] == "self":
            parts.pop()
        yield name.strip() or parts[-1], parts
        return
    before = [*before, *[it for it in head.strip().split("::") if it]]
    depth, start, inside = 0, 0, rest.rstrip().removesuffix("}")
    for at, sign in enumerate(inside + ","):
        depth += (sign == "{") - (sign == "}")
        if sign == "," and not depth:
            if inside[start:at].strip():
                yield from used(inside[start:at], before)
            start = at + 1


def depth_of(text):
    """Returns how many brackets of a text stay open, those of a text in quotes aside."""
    text = re.sub(r'"(?:\\.|[^"\\])*"|\'(?:\\.|[^\'\\])\'', "", text)
    return sum(text.count(it) for it in "([{") - sum(text.count(it) for it in ")]}")


def without_generics(text):
    """Returns a text without what stands in angle brackets."""
    found, depth = "", 0
    for at, sign in enumerate(text):
        depth += sign == "<"
        found += sign if not depth else ""
        depth -= sign == ">" and text[at - 1] not in "-="
    return found


def scope_of(header):
    """Returns the type or trait to whose functions a header leads, and what these are where they are not said to be public."""
    words = without_generics(header).replace("{", " ").split()
    if words[0] == "impl":
        own = words[words.index("for") + 1] if "for" in words else words[1]
        return own.rpartition("::")[2], "of a trait" if "for" in words else "private"
    return words[words.index("trait") + 1].rstrip(":"), "public" if words[0] == "pub" else "private"


class Source:
    """A file that is read line by line."""

    def __init__(self, crate, module, file):
        self.crate, self.module, self.file = crate, module, file
        self.lines, self.at = repository.text_of(file).split("\n"), 0
        self.declared, self.functions = Module(), []
        self.doc, self.scope, self.is_open = [], None, False

    def until(self, ends):
        """Returns the lines from here to the first after which ends says so, joined, and goes behind them."""
        text = ""
        while self.at < len(self.lines):
            text += self.lines[self.at] + "\n"
            self.at += 1
            if ends(text):
                break
        return text

    def read(self):
        """Reads the file."""
        while self.at < len(self.lines):
            line = self.lines[self.at]
            text = line.strip()
            if text.startswith("///"):
                self.doc.append(text[3:].strip() or "\0")
                self.at += 1
            elif text.startswith("#["):
                self.until(lambda it: depth_of(it) <= 0)
            else:
                self.declaration(line, text)
                self.doc = []
        return self

    def declaration(self, line, text):
        """Reads what a line begins, or passes over it."""
        public, inside = text.startswith("pub "), line[:1] == " "
        if FN.match(line):
            self.function(line)
        elif not inside and re.match(r"(pub(\([^)]*\))? )?use ", text):
            tree = self.until(lambda it: it.rstrip().endswith(";")).strip().removesuffix(";").partition("use ")[2]
            for name, path in used(" ".join(tree.split())):
                self.declared.globs.append((path[:-1], public)) if name == "*" else self.declared.uses.update({name: (path, public)})
        elif not inside and re.match(r"(pub(\([^)]*\))? )?mod \w+;", text):
            self.declared.mods[text.removesuffix(";").split()[-1]] = public
            self.at += 1
        elif not inside and SCOPE.match(text):
            header = self.until(lambda it: it.rstrip().endswith(("{", "}")))
            self.scope, self.is_open = scope_of(header), header.rstrip().endswith("{")
            self.item(text)
        else:
            self.item(text) if not inside else None
            if line.startswith("}"):
                self.scope = None
            self.at += 1

    def item(self, text):
        """Notes an item, and of an alias what it stands for."""
        found = re.match(r"(pub(?:\([^)]*\))? )?(?:struct|enum|type|trait|const|static) (\w+)", text)
        if found:
            self.declared.items[found[2]] = found[1] == "pub "
            alias = re.match(r"(?:pub )?type \w+(?:<[^=]*>)? = ([\w:]+)", text)
            if alias:
                self.declared.aliases[found[2]] = alias[1].split("::")

    def function(self, line):
        """Reads a function's signature and clauses, up to its body."""
        indent, public, name = FN.match(line).groups()
        number, begins = self.at + 1, re.compile(r"\s*(ensures|requires)\b|\s*//|\s*\{\s*$")
        more = lambda: self.at < len(self.lines) and not begins.match(self.lines[self.at])
        ended = lambda it: depth_of(it.rstrip().removesuffix("{")) == 0 and (it.rstrip().endswith(("{", ";")) or not more())
        signature = self.until(ended).strip()
        clauses = ""
        if not signature.endswith(("{", ";")):
            body = f"{indent}{{"
            clauses = self.until(lambda it: self.at >= len(self.lines) or self.lines[self.at].startswith(body) or it.rstrip().endswith("};"))
        if not indent:
            self.declared.items[name] = public is not None
        if not indent or self.scope:
            told = named(re.sub(r"//[^\n]*", "", clauses))
            place = f"{os.path.relpath(self.file, repository.TOP)}:{number}"
            scope, kind = self.scope if indent else (None, "private")
            kind = "public" if public else kind
            self.functions.append(Function(self.crate, self.module, scope, name, shown(signature), told, self.doc, place, kind))


def shown(signature):
    """Returns a signature on one line."""
    text = " ".join(signature.rstrip("{; \n").split())
    text = re.sub(r"^(pub )?(const |unsafe )*fn ", "", text)
    return text.replace("( ", "(").replace(", )", ")").replace(",)", ")").rstrip(",")


def named(text):
    """Returns the clauses of a function, each as its kind and its name, '' where it has none."""
    found, depth = [], 0
    for it in re.finditer(r"\b(ensures|requires)\*? *(\w*) *\{|[{}]", text):
        if it[1] and not depth:
            found.append((it[1], it[2]))
        depth += 1 if it[0].endswith("{") else -1
    return found


class Library:
    """All sources of the repository's library crates."""

    def __init__(self):
        self.lines, self.modules, self.functions = repository.lines_of_crates(), {}, []
        self.crates = [it for it in self.lines if not repository.is_program(it) and not repository.has_tests(it)]
        for crate in self.crates:
            top = f"{repository.TOP}/crates/{crate}/src"
            for file in repository.sources(os.path.dirname(top), parts=("src",)):
                path = os.path.relpath(file, top).removesuffix(".rt").split("/")
                source = Source(crate, () if path == ["lib"] else tuple(path), file).read()
                self.modules[crate, source.module] = source.declared
                self.functions += source.functions

    def find(self, crate, module, path, inside=True):
        """Returns where what a path names is declared: (crate, module, name), the name None of a module; or None where it is not here."""
        if not path:
            return crate, module, None
        first, rest = path[0], path[1:]
        if first in ("crate", "self", "super"):
            return self.find(crate, () if first == "crate" else module[:-1] if first == "super" else module, rest)
        here = self.modules.get((crate, module))
        if here is None:
            return None
        if first in here.mods and (inside or here.mods[first]):
            return self.find(crate, (*module, first), rest, inside)
        if first in here.items and not rest and (inside or here.items[first]):
            return crate, module, first
        if first in here.uses and (inside or here.uses[first][1]):
            return self.onward(crate, module, here.uses[first][0], rest)
        if first in self.crates and inside:
            return self.find(first, (), rest, False)
        found = [self.onward(crate, module, it, path) for it, public in here.globs if inside or public]
        return next((it for it in found if it), None)

    def onward(self, crate, module, path, rest):
        """Finds what a use brought in, and a path from there."""
        if path[0] in self.crates and path[0] not in self.modules[crate, module].mods:
            return self.find(path[0], (), [*path[1:], *rest], path[0] == crate)
        own = self.modules[crate, module]
        if len(path) == 1 and path[0] not in own.mods and path[0] not in own.items:
            return None
        return self.find(crate, module, [*path, *rest])

    def paths(self, crate, module=(), before=None):
        """Yields the public paths of a crate, each with where its item is declared."""
        before, here = before or [crate], self.modules[crate, module]
        names = [*here.items, *here.uses]
        for path, public in here.globs:
            at = self.find(crate, module, path) if public else None
            names += [*self.modules[at[0], at[1]].items, *self.modules[at[0], at[1]].uses] if at else []
        for name in dict.fromkeys(names):
            found = self.find(crate, module, [name], False)
            if found and found[2]:
                yield [*before, name], found
            elif found and name in here.uses and len(before) < 6:
                yield from self.paths(found[0], found[1], [*before, name])
        for name, public in here.mods.items():
            if public:
                yield from self.paths(crate, (*module, name), [*before, name])

    def public(self, crate):
        """Returns the shortest public path of each item that a crate hands out, by where the item is declared; and of those that
        it names by aliases alone, the aliases' paths."""
        found, aliased = {}, {}
        for path, at in self.paths(crate):
            if at not in found or len(path) < len(found[at]):
                found[at] = path
        for at, path in found.items():
            target = self.modules[at[0], at[1]].aliases.get(at[2])
            while target:
                origin = self.find(at[0], at[1], target)
                if origin and origin not in found:
                    aliased.setdefault(origin, []).append(path)
                at = origin
                target = at and self.modules[at[0], at[1]].aliases.get(at[2])
        return found, aliased

    def origin(self, function):
        """Returns where what a function belongs to is declared: its type or trait, or itself."""
        return self.find(function.crate, function.module, [function.scope or function.name])
