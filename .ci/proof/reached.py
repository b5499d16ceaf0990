#!/usr/bin/env python3
"""Which definitions of specs/ the clauses of public items reach.

  .ci/proof/reached.py               for each library: its definitions, how many are reached, and how many stand in specs/inside/
  .ci/proof/reached.py CRATE..       the definitions of these crates that aren't reached and stand elsewhere, and those in specs/inside/ that are
  .ci/proof/reached.py --from NAME.. what these definitions reach, themselves among it
  .ci/proof/reached.py --to NAME     a chain from a public item to a definition
  .ci/proof/reached.py --headline    how many the headline reaches, and their lines; with --check, whether PROMISES says so

A definition is reached where a clause of a public function names it, or a `ghost` line of a public type or trait, or a
definition that is reached. Names are resolved by the `use` lines of their file. A name that is bound where it stands, and the
name of a field, count for nothing.
"""
import glob
import os
import re
import sys

TOP = os.path.join(os.path.dirname(os.path.abspath(__file__)), "../..")
LIBRARIES = ("gimli_core", "gimli_bytes", "gimli_line", "gimli_lookup", "gimli_index", "gimli_build", "gimli_write", "gimli_c", "gimli_compilation", "inflate", "elf_sections", "debug_files")
HEAD = re.compile(r"(?:(?:abbrev pub|abbrev|unfoldable pub|pub unfoldable) |(pub record|record|pub data|data) )([^\s{]\S*)")
USE = re.compile(r"^[ \t]*(?:pub |ghost |pub ghost )?use (Rattle[\w.+]*?)(?:\.\{([^}]*)\})?;?$", re.M)


class Definition:
    def __init__(self, module, name, kind, indent, path, line):
        self.module, self.name, self.kind, self.indent, self.path, self.line = module, name, kind, indent, path, line
        self.full = module + "." + name
        self.text = []
        self.constructors = []
        self.names = set()


def words_of(name):
    """What stands for a name in a text: of an operator its signs."""
    return [word for word in name.split("◌") if word] if "◌" in name else [name]


def tokens(text):
    """The names of a text, without fields."""
    return {t for t in re.findall(r"\.?[^\s(){}\[\],;.\"«»]+", text) if not t.startswith(".")}


def bound(text):
    """The names that are bound in a text."""
    names = set(re.findall(r"\blet (\S+) ", text)) | set(re.findall(r"^(\S+) ←", text, re.M))
    for binder in re.findall(r"λ ([^.]*)\.", text):
        names.update(binder.replace("(", " ").split(":")[0].split())
    for binder in re.findall(r"[({]([^(){}:]+) : ", text):
        names.update(binder.split())
    return names


def uses_of(text):
    """Each name that is imported, as it is written, with where it comes from."""
    # A path may begin with a module that another line names, and that line's too.
    for _ in range(2):
        for front, name in re.findall(r"^use (Rattle[\w.+]*)\.(\w+)$", text, re.M):
            text = re.sub(r"^((?:pub )?use )(?=%s\.)" % name, r"\g<1>%s." % front, text, flags=re.M)
    for module, items in USE.findall(text):
        for item in items.split(",") if items else ():
            parts = item.strip().split(" as ")
            if parts[0]:
                yield parts[-1].strip(), module + "." + parts[0].strip()


def definitions_of(crate, path):
    """The definitions of a file of specs/."""
    inner = os.path.relpath(path, os.path.join(TOP, "crates", crate, "specs"))[: -len(".antt")]
    module = "Rattle.%s.specs.%s" % (crate, inner.replace("/", "."))
    found, current, telescope = [], None, []
    for number, line in enumerate(open(path, encoding="utf8"), 1):
        line = re.sub(r"(^|\s)--.*", "", line.rstrip())
        text, indent = line.strip(), len(line) - len(line.lstrip())
        if not text or re.match(r"(pub )?(use|mod) |infix", text):
            continue
        if text.startswith("module ") or text == "abbrev mutual":
            current, telescope = None, [text]
            continue
        is_field = current is not None and current.kind in ("record", "data") and indent > current.indent
        head = HEAD.match(text) if indent <= 2 and not is_field else None
        plain = re.match(r"pub (\S+) :", text) if indent <= 2 and not is_field and not head else None
        if head or plain:
            kind = (head.group(1) or "abbrev").split()[-1] if head else "abbrev"
            current = Definition(module, head.group(2) if head else plain.group(1), kind, indent, path, number)
            current.text = list(telescope) if indent else []
            found.append(current)
        if current is None:
            continue
        current.text.append(text)
        constructor = re.match(r"(?:pub )?(\S+) :", text)
        if current.kind == "data" and is_field and constructor:
            current.constructors.append(constructor.group(1))
    return module, found


def names_in(definition):
    """The names that a definition mentions."""
    text = "\n".join(definition.text)
    variables = bound(text)
    for line in definition.text:
        if definition.kind == "abbrev" and line.startswith(definition.name + " ") and " =" in line:
            variables |= {t for t in tokens(line[len(definition.name) :].split(" =")[0]) if re.match(r"[a-z_]+\w*$", t)}
    return tokens(re.sub(r"(^|[{;] ?)(?:pub )?\w+ ([:=]) ", r"\1\2 ", text, flags=re.M)) - variables


class Specs:
    def __init__(self):
        self.all, self.uses, self.constructors = {}, {}, {}
        for crate in sorted(os.listdir(os.path.join(TOP, "crates"))):
            for path in sorted(glob.glob(os.path.join(TOP, "crates", crate, "specs", "**", "*.antt"), recursive=True)):
                module, found = definitions_of(crate, path)
                self.uses[module] = dict(uses_of(open(path, encoding="utf8").read()))
                for definition in found:
                    definition.crate = crate
                    self.all[definition.full] = definition
                    for name in definition.constructors:
                        self.constructors[module + "." + name] = definition.full
        for definition in self.all.values():
            scope = self.scope_of(self.uses[definition.module].items())
            for other in self.all.values():
                if other.module == definition.module:
                    for name in [other.name] + other.constructors:
                        scope.update((word, {other.full}) for word in words_of(name))
            for name in names_in(definition):
                definition.names |= scope.get(name, set()) - {definition.full}

    def resolve(self, full):
        """The definition that a full name stands for, where it is one."""
        if full in self.all:
            return full
        if full in self.constructors:
            return self.constructors[full]
        module, _, name = full.rpartition(".")
        if module in self.all:
            return module
        onward = self.uses.get(module, {}).get(name)
        return self.resolve(onward) if onward and onward != full else None

    def scope_of(self, imports):
        scope = {}
        for name, full in imports:
            found = self.resolve(full)
            for word in words_of(name) if found else ():
                scope.setdefault(word, set()).add(found)
        return scope

    def reach(self, roots):
        """What is reached from these, each with what it is reached from."""
        reached, left = dict(roots), list(roots)
        while left:
            full = left.pop()
            for name in self.all[full].names:
                if name not in reached:
                    reached[name] = full
                    left.append(name)
        return reached


def end_of_block(text, start):
    depth = 0
    for i in range(start, len(text)):
        depth += (text[i] == "{") - (text[i] == "}")
        if depth == 0:
            return i + 1
    return len(text)


def clauses_of(text, start):
    """The clauses after the name of a function."""
    found, depth, i = [], 0, start
    while i < len(text):
        depth += (text[i] in "([") - (text[i] in ")]")
        clause = re.compile(r"\b(?:requires|ensures\*?)(?=[ {])").match(text, i) if depth == 0 else None
        if clause:
            opening = text.index("{", i)
            i = end_of_block(text, opening)
            found.append(text[opening:i])
            continue
        if depth == 0 and text[i] in "{;":
            break
        i += 1
    return "\n".join(found)


def subject_of(head):
    """The type that an `impl` line is about."""
    if head.startswith("<"):
        depth = 0
        for i, c in enumerate(head):
            depth += (c == "<") - (c == ">" and head[i - 1] != "-")
            if depth == 0:
                head = head[i + 1 :]
                break
    head = re.sub(r"\s+where.*", "", head, flags=re.S).split(" for ")[-1].strip()
    return re.split(r"[<\s]", re.sub(r"^&\s*('\w+ )?", "", head))[0].split("::")[-1]


def ghost_lines(text):
    for line in re.finditer(r"ghost (?!use\b)(\w+)\s*(?:=|:)\s*\{", text):
        yield line.group(1), text[line.start() : end_of_block(text, line.end() - 1)]


def public_clauses(text, public_types):
    """The clauses and ghost lines of the public items of a file, each with the name of its item."""
    item = re.compile(r"^(pub(?:\([a-z]+\))? )?(?:unsafe )?(?:extern \"C\" )?(impl|trait|fn|struct|enum)\b([^{;]*)", re.M)
    for m in item.finditer(text):
        is_public, kind, head = m.group(1) == "pub ", m.group(2), m.group(3).strip()
        if kind == "fn":
            if is_public:
                name = re.compile(r"fn (\w+)").search(text, m.start())
                yield name.group(1), clauses_of(text, name.end())
            continue
        name = subject_of(head) if kind == "impl" else re.split(r"\W", head)[0]
        if name not in public_types or (kind != "impl" and not is_public):
            continue
        opening = text.find("{", m.start())
        body = text[opening : end_of_block(text, opening)]
        if kind in ("struct", "enum") and ";" in text[m.end() - 1 : opening]:
            continue
        for ghost, line in ghost_lines(body):
            yield "%s.%s" % (name, ghost), line
        for function in re.finditer(r"(pub(?:\([a-z]+\))? )?(?:unsafe )?fn (\w+)", body) if kind in ("impl", "trait") else ():
            if function.group(1) == "pub " or kind == "trait" or " for " in head:
                yield "%s::%s" % (name, function.group(2)), clauses_of(body, function.end())


# What the headline rests on: a unit that is read back, sequences and what refuses them, and why a unit can't be written.
HEADLINE = ("ReadsBackAs", "AreSequences", "HasFirstFault", "first_cause", "WritesOr")


def roots_of(specs):
    roots = {}
    for crate in LIBRARIES:
        paths = sorted(glob.glob(os.path.join(TOP, "crates", crate, "src", "**", "*.rt"), recursive=True))
        texts = {path: re.sub(r"//[^\n]*", "", open(path, encoding="utf8").read()) for path in paths}
        public_types = {name for text in texts.values() for name in re.findall(r"^pub (?:struct|enum|trait) (\w+)", text, re.M)}
        for text in texts.values():
            scope = specs.scope_of(uses_of(text))
            for item, clause in public_clauses(text, public_types):
                for name in tokens(clause) - bound(clause):
                    for full in scope.get(name, ()):
                        roots.setdefault(full, "%s: %s" % (crate, item))
    return roots


def main(words):
    specs = Specs()
    reached = specs.reach(roots_of(specs))
    named = [full for full in specs.all for word in words[1:] if full == word or full.endswith("." + word)]
    if words[:1] == ["--from"]:
        found = specs.reach({full: full for full in named})
        print("%s: they reach %d definitions" % (", ".join(named), len(found)))
        print("".join("    %s\n" % name for name in sorted(found)), end="")
    elif words[:1] == ["--headline"]:
        found = specs.reach({full: full for full in specs.all if full.rpartition(".")[2] in HEADLINE})
        said = "%d definitions of %s lines" % (len(found), format(sum(len(specs.all[full].text) for full in found), ","))
        with open(os.path.join(TOP, "docs", "explanation", "PROMISES.md"), encoding="utf8") as file:
            is_told = said in " ".join(file.read().split())
        if "--check" not in words or not is_told:
            print(said if "--check" not in words else "docs/explanation/PROMISES.md doesn't say that the headline rests on " + said)
        return 0 if is_told or "--check" not in words else 1
    elif words[:1] == ["--to"]:
        for full in named:
            chain = [full]
            while chain[-1] in specs.all:
                chain.append(reached.get(chain[-1], "no public item"))
            print(" <- ".join(chain))
    else:
        total = [0, 0, 0]
        for crate in words or LIBRARIES:
            own = [d for d in specs.all.values() if d.crate == crate]
            left = [d for d in own if d.full not in reached]
            inside = [d for d in own if ".specs.inside." in d.full]
            print("%s: %d definitions, %d reached, %d in specs/inside" % (crate, len(own), len(own) - len(left), len(inside)))
            total = [total[0] + len(own), total[1] + len(own) - len(left), total[2] + len(inside)]
            for d in own if words else ():
                if (d in left) != (d in inside):
                    print("    %s %s" % (os.path.relpath(d.path, os.path.join(TOP, "crates", crate, "specs")), d.name))
        print("all: %d definitions, %d reached, %d in specs/inside" % tuple(total))


sys.exit(main(sys.argv[1:]))
