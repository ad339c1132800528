"""The definitions of our crates, and which ones a definition names: specs/*.antt, and types and clauses of src/*.rt.

A name is resolved as the checker does it: by the binders around it, the definitions of its file, and its imports.

- A definition in specs/ names what stands in its signature, its clauses and the heads `module _ (..)` around it.
- A type of Rust (`specs.declared.MODULE.Type`, or the type of a parameter that a clause cites) names the types of its
  fields and what its model says; a trait names what its ghosts say.
- A lemma, which the prover checks, is not followed. It has to be named as one: most definitions that are neither
  `abbrev` nor `unfoldable` are lemmas, but not all.
- A description is a lemma of proofs/ whose statement says that there is exactly one value with a property. It is
  followed by its statement alone, since the prover checks the value, and no other value meets the statement. Another
  name of proofs/ is not found.
- A name of the kit, or one that the checker generates, is a key ("kit", module, name) and is not followed.
"""
import bisect
import collections
import dataclasses
import functools
import pathlib
import re

INTERNAL = "internal"  # the folder in specs/ of definitions on which no promise rests

# Words of the language and of its built-in module, which no import brings.
BUILT_IN = set("Type Unit tt absurd refl Prim unfold let in _ ? ⊥ ¬ ∥ ∥₁".split())


# ---- words

WORD = re.compile(r'[^\s(){}.;,@"«»]+')
TOKEN = re.compile(r'"(?:[^"\\]|\\.)*"|[(){};,@«»]|\.?[^\s(){}.;,@"«»]+(?:\.[^\s(){}.;,@"«»]+)*|\.')
NUMERAL = re.compile(r"(0x[0-9a-fA-F_]+|[0-9][0-9_]*)$")


STRING = r'"(?:[^"\\]|\\[\s\S])*"'
LETTER = r"b?'(?:[^'\\\n]|\\[^\n]{1,8}?)'"  # of Rust; a lifetime has no second quote


def blanks(text):
    return re.sub(r"[^\n]", " ", text)


def without_comments(text):
    """The text with comments replaced by blanks: `-- ..` where a word may begin, `{- .. -}`; texts stay."""
    pattern = rf"{STRING}|\{{-.*?-\}}|(?<![^\s(){{}}.;,@])--(?=\s|-|$)[^\n]*"
    return re.sub(pattern, lambda it: it[0] if it[0][0] == '"' else blanks(it[0]), text, flags=re.S | re.M)


def without_rust_comments(text):
    pattern = rf"{STRING}|{LETTER}|//[^\n]*|/\*.*?\*/"
    return re.sub(pattern, lambda it: it[0] if it[0][0] == '"' else blanks(it[0]), text, flags=re.S)


def mixfix_parts(name):
    """The words of an operator's name; none for a plain name or a constructor such as `[]`."""
    return [part for part in name.split("◌") if part] if "◌" in name else []


# ---- scopes: what a file imports

USE = re.compile(r"^([ ]*)((?:pub |ghost |unfoldable |abbrev )*)use (?:Rattle\.)?([\w.]+?)"
                 r"(?:\.\{([^}]*)\}| as (\S+?))?;?[ \t]*$", re.M)


@dataclasses.dataclass
class Scope:
    """Names of items, and of modules, with the path after `Rattle.` that each stands for."""

    items: dict
    modules: dict

    def copy(self):
        return Scope(dict(self.items), dict(self.modules))


def read_uses(text, scope, indentation=None):
    """Adds the imports of a text to a scope."""
    for found in USE.finditer(text):
        if indentation is not None and len(found[1]) != indentation:
            continue
        path, names, alias = found[3], found[4], found[5]
        if names is not None:
            for name in names.split(","):
                name = name.strip()
                if name:
                    first, _, other = name.partition(" as ")
                    scope.items[(other or first).strip()] = (path, first.strip())
        else:
            # A type's module has the type's name too: `declared.rows.MoveRow as row_of`, then `row_of.MoveRow`.
            scope.modules[alias or path.split(".")[-1]] = path
    return scope


# ---- definitions

@dataclasses.dataclass
class Definition:
    """A definition, a `module _ (..)` head, or an item of Rust."""

    key: tuple  # crate, path of the file below crates/, name
    kind: str  # record, data, abbrev, unfoldable, abstract, lemma, axiom, description, parameters; type, trait, constant
    first: int = 0  # lines of the file, from 1
    last: int = 0
    lines: int = 0  # without comments and blank lines
    comment: str = ""
    source: str = ""
    heads: tuple = ()  # keys of the module heads around it
    binders: frozenset = frozenset()  # parameters of the modules around it
    constructors: tuple = ()


PREFIXES = {"pub", "abbrev", "unfoldable", "opaque", "axiom", "pattern", "private", "mutual"}
BINDER = re.compile(r"[({]\s*([^(){}:]+?)\s*:(?=\s)")


def declared_name(line):
    """The kind and name of the definition that a line begins, or None."""
    words = line.split()
    kind = "abstract"
    while words and words[0] in PREFIXES:
        if words[0] in ("abbrev", "unfoldable"):
            kind = words[0]
        elif words[0] == "axiom":
            kind = "axiom"
        words = words[1:]
    if not words:
        return None
    if words[0] in ("record", "data") and len(words) > 1 and words[1] != "{":
        return words[0], words[1]
    if len(words) > 1 and words[1] == ":" and words[0][0] not in "({[":
        return kind, words[0]
    return None


def depth_of_body(lines):
    """The indentation of the fields or constructors of a record or data: of what follows its `where`."""
    ends = [at for at, line in enumerate(lines) if re.search(r"\bwhere\s*$", line)]
    after = [line for line in lines[ends[0] + 1:] if line.strip()] if ends else []
    return len(after[0]) - len(after[0].lstrip()) if after else None


class SpecFile:
    """A file of specs/: its imports and its definitions."""

    def __init__(self, tree, crate, path):
        self.tree, self.crate, self.path = tree, crate, path
        self.raw = (tree.crates / path).read_text(encoding="utf-8")
        self.text = without_comments(self.raw)
        self.scope = read_uses(self.text, Scope({}, {}), 0)
        self.reexports = Scope({}, {})
        for found in USE.finditer(self.text):
            if "pub " in found[2]:
                read_uses(found[0], self.reexports)
        self.definitions, self.constructor_of, self.odd = {}, {}, []
        self.parse()

    def parse(self):
        raw, lines = self.raw.split("\n"), self.text.split("\n")
        modules = []  # indentation of the items within, key of the head, its binders
        at, comment_from, current = 0, None, None
        while at < len(lines):
            line = lines[at]
            depth = len(line) - len(line.lstrip())
            if not line.strip():
                stripped = raw[at].strip()
                if not stripped.startswith("--") or re.match(r"-- ?-{2,}", stripped):
                    comment_from = None
                elif comment_from is None:
                    comment_from = at
                at += 1
                continue
            while modules and depth < modules[-1][0]:
                modules.pop()
            inner = modules[-1][0] if modules else 0
            if depth == inner:
                if re.match(r"\s*(?:pub |unfoldable |abbrev )*use\b", line):
                    current, comment_from = None, None
                    at += 1
                    continue
                if re.match(r"\s*(infixl?r?|infixr)\b", line):
                    at += 1
                    continue
                if re.match(r"\s*(?:pub )?module\b", line):
                    end = at
                    while not re.search(r"\bwhere\s*$", lines[end]):
                        end += 1
                    head = "\n".join(lines[at:end + 1])
                    key = (self.crate, self.path, f"(parameters of line {at + 1})")
                    self.definitions[key[2]] = Definition(
                        key, "parameters", at + 1, end + 1, end + 1 - at,
                        source=re.sub(r"^\s*(?:pub )?module\s+\S+|\bwhere\s*$", " ", head),
                        heads=tuple(it[1] for it in modules), binders=self.around(modules))
                    names = frozenset(name for it in BINDER.finditer(head) for name in it[1].split())
                    following = end + 1
                    while following < len(lines) and not lines[following].strip():
                        following += 1
                    within = len(lines[following]) - len(lines[following].lstrip()) if following < len(lines) else 0
                    modules.append((within, key, names))
                    at, current, comment_from = end + 1, None, None
                    continue
                begun = declared_name(line)
                if begun:
                    kind, name = begun
                    comment = ""
                    if comment_from is not None and comment_from < at:
                        comment = " ".join(it.strip().lstrip("-").strip() for it in raw[comment_from:at])
                    if (self.path, name) in self.tree.lemmas:
                        kind = "lemma"
                    current = Definition((self.crate, self.path, name), kind, at + 1, at + 1, comment=comment,
                                         heads=tuple(it[1] for it in modules), binders=self.around(modules))
                    if name in self.definitions:
                        self.odd.append(f"crates/{self.path}:{at + 1}: {name} is defined twice")
                    self.definitions[name] = current
                elif current is None or not self.is_clause(line, current.key[2]):
                    self.odd.append(f"crates/{self.path}:{at + 1}: {line.strip()[:80]}")
            comment_from = None
            if current is not None:
                current.last = at + 1
            at += 1
        for definition in self.definitions.values():
            part = lines[definition.first - 1:definition.last]
            definition.lines = sum(bool(it.strip()) for it in part)
            if definition.kind != "parameters":
                definition.source = "\n".join(part)
            if definition.kind == "data":
                self.read_constructors(definition, part)

    @staticmethod
    def around(modules):
        return frozenset(name for it in modules for name in it[2])

    def is_clause(self, line, name):
        words = WORD.findall(line)
        parts = mixfix_parts(name)
        if parts:
            return all(it in words for it in parts) or name in words
        return bool(words) and words[0] == name or line.split()[0] in ("unfolding", "}", ")")

    def read_constructors(self, definition, part):
        depth = depth_of_body(part)
        for line in part[1:]:
            found = re.match(r"([ ]+)(?:pub )?([^:=(]+?) :(?:\s|$)", line)
            if found and len(found[1]) == depth:
                for name in found[2].split():
                    self.constructor_of[name] = definition
        definition.constructors = tuple(it for it, of in self.constructor_of.items() if of is definition)

    def find(self, name):
        """The definition of a name of this file: its own, a constructor's, or one that it hands on."""
        if name in self.definitions:
            return self.definitions[name].key
        if name in self.constructor_of:
            return self.constructor_of[name].key
        if name in self.reexports.items:
            return self.tree.item(*self.reexports.items[name])
        return None


def result_of(statement):
    """What is behind the last arrow of a statement `NAME : A → (x : B) → C`."""
    text = re.split(r"\s:\s", statement, maxsplit=1)[1]
    depth = start = 0
    for it in re.finditer(r"[(){}\[\]→]", text):
        depth += (it[0] in "({[") - (it[0] in ")}]")
        if it[0] == "→" and depth == 0:
            start = it.end()
    return text[start:]


class ProofFile(SpecFile):
    """A file of proofs/, of which only the descriptions can be named: lemmas `.. → TheOnly P`, by their statements."""

    def parse(self):
        super().parse()
        resolve = Resolver(self.tree, self, self.scope)
        found = {}
        for name, it in self.definitions.items():
            if it.kind == "parameters":
                found[name] = it
            elif it.kind in ("abbrev", "unfoldable", "abstract"):
                statement = clauses(it.source)[0]
                words = WORD.findall(result_of(statement))
                if words and words[0] in self.scope.items and resolve(words[0]) == self.tree.description:
                    it.kind, it.source = "description", statement
                    it.lines = len(statement.split("\n"))
                    it.last = it.first + it.lines - 1
                    found[name] = it
        self.definitions, self.constructor_of, self.odd = found, {}, []


# ---- Rust

RUST_ITEM = r"^[ ]*(?:pub(?:\([^)]*\))? )?(struct|enum|trait|type|const|static|fn|union)\s+{name}\b"


class RustFile:
    """A file of src/: its text, its imports, and the items in it."""

    def __init__(self, tree, crate, path):
        self.tree, self.crate, self.path = tree, crate, path
        self.raw = (tree.crates / path).read_text(encoding="utf-8")
        self.text = without_rust_comments(self.raw)
        self.plain = re.sub(STRING, lambda it: blanks(it[0]), self.text)
        self.scope = read_uses(self.text, Scope({}, {}), 0)
        self.types, self.kit = {}, {}
        self.read_rust_uses()
        self.starts = [it.start() for it in re.finditer(r"^", self.raw, re.M)]

    def line(self, at):
        return bisect.bisect_right(self.starts, at)

    def read_rust_uses(self):
        """What the file imports by Rust's `use`: name -> (crate, name) of ours, name -> (path, name) of the kit's."""
        for use in re.finditer(r"^\s*(?:pub(?:\([^)]*\))? )?use ([^;]+);", self.plain, re.M):
            for path, name, alias in flattened(use[1]):
                head = path.split("::")[0]
                crate = self.crate if head in ("crate", "self", "super") else head
                if crate in self.tree.crate_names:
                    self.types[alias or name] = (crate, name)
                else:
                    self.kit[alias or name] = (path.rpartition("::")[0], name)

    def block(self, start):
        """The end of the item that begins at an offset: behind its closing brace, or its semicolon."""
        depth, at = 0, start
        while at < len(self.plain):
            it = self.plain[at]
            if it in "{([":
                depth += 1
            elif it in "})]":
                depth -= 1
                if depth == 0 and it == "}":
                    return at + 1
            elif it == ";" and depth == 0:
                return at + 1
            at += 1
        return at


def flattened(use):
    """(path, name, alias) of each leaf of a Rust `use`."""
    use = " ".join(use.split())
    brace = use.find("{")
    if brace < 0:
        path, _, alias = use.partition(" as ")
        name = path.split("::")[-1]
        return [(path, name, alias.strip())]
    head, inner = use[:brace], use[brace + 1:use.rfind("}")]
    leaves, depth, start = [], 0, 0
    for at, it in enumerate(inner + ","):
        depth += {"{": 1, "}": -1}.get(it, 0)
        if it == "," and depth == 0:
            leaf = inner[start:at].strip()
            if leaf:
                leaves += flattened(head + leaf)
            start = at + 1
    return leaves


# ---- the tree

class Tree:
    """All specs and sources of a repository, and from each definition the ones that it names."""

    def __init__(self, top, lemmas=(), description=None):
        self.top, self.crates = top, top / "crates"
        self.lemmas = frozenset(lemmas)  # (file below crates/, name)
        self.description = description  # the key of the record that says that there is exactly one value
        self.crate_names = {it.name for it in self.crates.iterdir() if it.is_dir()}
        self.specs, self.rust = {}, {}
        for crate in sorted(self.crate_names):
            folder = self.crates / crate
            for path in sorted((folder / "specs").rglob("*.antt")):
                if path.name not in ("Lib.antt", f"{INTERNAL}.antt"):
                    module = ".".join(path.relative_to(folder / "specs").with_suffix("").parts)
                    self.specs[crate, module] = SpecFile(self, crate, str(path.relative_to(self.crates)))
            for path in sorted((folder / "src").rglob("*.rt")):
                name = str(path.relative_to(self.crates))
                self.rust[name] = RustFile(self, crate, name)
        self.by_path = {it.path: it for it in self.specs.values()}
        self.proofs = {}
        self.types = {}
        self.found, self.unresolved = {}, collections.Counter()

    def item(self, path, name):
        """The key of an item by the path of its module; a pair ("kit", module) for one of the kit; None for none."""
        crate, _, rest = path.partition(".")
        if crate not in self.crate_names:
            return "kit", path.replace(".specs", "", 1), name
        part, _, module = rest.partition(".")
        if part == "proofs":
            file = self.proof_file(crate, module)
            return file and file.find(name)
        if module == "declared" or module.startswith("declared."):
            return self.rust_item(crate, module.removeprefix("declared").lstrip("."), name)
        if module.startswith("contracts."):
            return "kit", "generated for types of Rust", name
        if (crate, module) in self.specs:
            return self.specs[crate, module].find(name)
        # A name within a record or data, `use Rattle.C.specs.M.Type.{constructor}`.
        outer, _, owner = module.rpartition(".")
        if (crate, outer) in self.specs:
            return self.specs[crate, outer].find(owner)
        return None

    def proof_file(self, crate, module):
        """The file of a module of proofs/, if there is one."""
        if (crate, module) not in self.proofs:
            path = f"{crate}/proofs/{module.replace('.', '/')}.antt"
            self.proofs[crate, module] = None
            if (self.crates / path).exists():
                self.proofs[crate, module] = self.by_path[path] = ProofFile(self, crate, path)
        return self.proofs[crate, module]

    def rust_item(self, crate, module, name):
        """The key of a Rust item: a type by its module's last name, a variant, or a constant."""
        parts = module.split(".") if module else []
        if "TheVariants" in parts:
            parts, name = parts[:parts.index("TheVariants")], None
        if "TheConstants" in parts:
            parts = parts[:parts.index("TheConstants")] + [name]
        elif name and (not parts or name != parts[-1] and not parts[-1][:1].isupper()):
            parts = parts + [name]
        if not parts:
            return None
        return self.type_key(crate, parts[-1], parts[:-1])

    @functools.lru_cache(maxsize=None)
    def _type_key(self, crate, name, modules):
        pattern = re.compile(RUST_ITEM.format(name=re.escape(name)), re.M)
        places = []
        for path, file in self.rust.items():
            if file.crate == crate and (found := pattern.search(file.plain)):
                own = pathlib.PurePath(path).relative_to(f"{crate}/src").with_suffix("").parts
                places.append((len(set(own) & set(modules)), path, found))
        if not places:
            return None
        places.sort(key=lambda it: (-it[0], it[1]))
        _, path, found = places[0]
        key = (crate, path, name)
        if key not in self.types:
            self.types[key] = self.rust_definition(key, found)
        return key

    def type_key(self, crate, name, modules=()):
        return self._type_key(crate, name, tuple(modules))

    def rust_definition(self, key, found):
        file = self.rust[key[1]]
        end = file.block(found.start())
        text = file.plain[found.start():end]
        comment = []
        for line in reversed(file.raw[:found.start()].rstrip("\n").split("\n")):
            if line.strip().startswith("#["):
                continue
            if not line.strip().startswith("///"):
                break
            comment.insert(0, line.strip().removeprefix("///").strip())
        first = file.line(found.start())
        kind = "constant" if found[1] in ("const", "static", "fn") else "trait" if found[1] == "trait" else "type"
        said = " ".join(comment).split(" # ")[0]
        return Definition(key, kind, first, file.line(end - 1), sum(bool(it.strip()) for it in text.split("\n")), said,
                          file.text[found.start():end])

    def definition(self, key):
        return self.types.get(key) or self.by_path[key[1]].definitions[key[2]]

    # -- what a text names

    def names(self, tokens, resolve):
        """The keys of the items that names stand for."""
        found = set()
        for token in tokens:
            key = resolve(token)
            if key is None:
                self.unresolved[token, resolve.file.path] += 1
            else:
                found.add(key)
        return found

    def uses(self, key):
        """The keys that a definition names."""
        if key not in self.found:
            self.found[key] = frozenset()  # a definition that names itself
            self.found[key] = frozenset(self.compute_uses(key) - {key})
        return self.found[key]

    def compute_uses(self, key):
        if key[0] == "kit":
            return set()
        definition = self.definition(key)
        if key in self.types:
            return self.uses_of_rust(definition)
        if definition.kind == "lemma":
            return set()
        file = self.by_path[key[1]]
        resolve = Resolver(self, file, file.scope)
        tokens = set()
        for clause in clauses(definition.source):
            tokens |= free_names(clause, resolve.is_constructor, definition.binders, definition.kind)
        return self.names(tokens, resolve) | set(definition.heads)

    def rust_types_in(self, file, text):
        """The types that a text of Rust names: those of its file and those that the file imports."""
        found = set()
        for name in set(re.findall(r"\b[A-Z]\w*\b", text)):
            if name in file.kit:
                found.add(("kit", *file.kit[name]))
                continue
            key = self.type_key(*file.types.get(name, (file.crate, name)))
            if key and (name in file.types or key[1] == file.path) and self.definition(key).kind != "constant":
                found.add(key)
        return found

    def uses_of_rust(self, definition):
        file = self.rust[definition.key[1]]
        name = definition.key[2]
        if definition.kind == "constant":
            return set()
        start = file.starts[definition.first - 1]
        end = file.block(start)
        if definition.kind == "trait":
            # What its methods promise is proved of each type that has them.
            above = file.plain[start:file.plain.index("{", start)]
            return self.uses_of_block(file, start, end, only_ghosts=True) | self.rust_types_in(file, above)
        found = self.rust_types_in(file, file.plain[start:end])
        for model in re.finditer(rf"^impl\b[^{{\n]*\bModel for {name}\b", file.plain, re.M):
            found |= self.uses_of_block(file, model.start(), file.block(model.start()))
        return found - {definition.key}

    def uses_of_block(self, file, start, end, wanted=None, scope=None, around=None, only_ghosts=False):
        """The keys that the ghosts and clauses between two offsets name."""
        text = file.text[start:end]
        scope = read_uses(text, (scope or file.scope).copy())
        resolve = RustResolver(self, file, scope)
        own = set(re.findall(r"\bghost (\w+)\s*[:=]", text))
        generics = {**(around or {}), **rust_generics(file.plain[start:end])}
        parameters = rust_parameters(file.plain[start:end])
        found = set()
        for name, clause, is_ghost in clauses_in(text):
            if (wanted is None or name in wanted) and (is_ghost or not only_ghosts):
                tokens = free_names(clause, resolve.is_constructor, own, "term")
                heads = {it.split(".")[0] for it in tokens}
                values = heads & (set(generics) | set(parameters) | IN_CLAUSES)
                tokens = {it for it in tokens if it.split(".")[0] not in values}
                found |= self.names(tokens, resolve)
                for it in values:
                    found |= self.rust_types_in(file, generics.get(it, "") + " " + parameters.get(it, ""))
        return found


IN_CLAUSES = {"self", "result", "Self"}


def rust_parameters(text):
    """The types of the parameters of Rust functions by their names; that of `result` is what they return."""
    found = collections.defaultdict(str)
    for it in re.finditer(r"[(,]\s*(?:mut )?(\w+): ", text):
        depth, at = 0, it.end()
        while at < len(text) and depth >= 0 and not (depth == 0 and text[at] in ",;"):
            depth += (text[at] in "(<[{") - (text[at] in ")>]}" and text[at - 1] not in "-=")
            at += 1
        found[it[1]] += " " + text[it.end():at]
    for it in re.finditer(r"->\s*([^{};]*?)(?=\{|;|$|\b(?:ensures|requires|decreases)\b)", text):
        found["result"] += " " + it[1]
    return found


def rust_generics(text):
    """Generic parameters and their bounds: of functions, impls and types."""
    found = {}
    for it in re.finditer(r"\b(?:fn \w+|impl|struct \w+|trait \w+|enum \w+)\s*<([^>(]*)>", text):
        for part in it[1].split(","):
            name, _, bound = part.partition(":")
            if name.strip() and not name.strip().startswith("'"):
                found[name.strip()] = bound
    return found


def clauses_in(text):
    """Of each clause and ghost value in a text of Rust: its name, what its braces hold, and whether it is a ghost."""
    for it in re.finditer(r"\b(?:(ensures|requires|decreases)(?:\s+(\w+))?|ghost (\w+)(?:\s*[:=]))\s*\{", text):
        depth, at = 1, it.end()
        while depth and at < len(text):
            if text[at] == '"':
                at = re.compile(STRING).match(text, at).end()
                continue
            depth += {"{": 1, "}": -1}.get(text[at], 0)
            at += 1
        name = it[2] or it[3] or it[1]
        yield "requires" if it[1] == "requires" else name, text[it.end():at - 1], it[3] is not None


class Resolver:
    """What a name stands for in a file of specs/: one of its own definitions, an import, or a part of an operator."""

    def __init__(self, tree, file, scope):
        self.tree, self.file, self.scope = tree, file, scope
        self.operators = {part: name for name in scope.items for part in mixfix_parts(name)}

    def is_constructor(self, name):
        """Whether a bare name in a pattern is a constructor, and no variable."""
        key = self(name)
        if key is None:
            return False
        if key[0] == "kit" or key in self.tree.types:
            return True
        original = self.scope.items[name][1] if name in self.scope.items else name
        return original in self.tree.definition(key).constructors

    def own(self, name):
        return self.file.find(name)

    def __call__(self, token):
        head, *rest = token.split(".")
        key = self.own(head)
        if key is None and head in self.scope.items:
            key = self.tree.item(*self.scope.items[head])
        if key is None and head in self.operators:
            key = self.tree.item(*self.scope.items[self.operators[head]])
        if key is None and head in self.scope.modules:
            path = self.scope.modules[head]
            for name in rest or [head]:
                key = self.tree.item(path, name)
                if key is not None:
                    break
                path = f"{path}.{name}"
        return key


class RustResolver(Resolver):
    """The same in a clause of src/, where the types of Rust are in scope too."""

    def own(self, name):
        return None

    def __call__(self, token):
        key = super().__call__(token)
        name = token.split(".")[0]
        if key is None and name[:1].isupper():
            key = self.tree.type_key(*self.file.types.get(name, (self.file.crate, name)))
        return key


def clauses(text):
    """The signature and the clauses of a definition, each with its continuation lines; a record or data is one."""
    lines = [it for it in text.split("\n") if it.strip()]
    if not lines:
        return []
    depth = len(lines[0]) - len(lines[0].lstrip())
    if re.match(r"\s*(?:\w+ )*(record|data)\s+[^{\s]", lines[0]):
        return ["\n".join(lines)]
    parts = [[]]
    for line in lines:
        if len(line) - len(line.lstrip()) <= depth and line.split()[0] not in ("}", ")"):
            parts.append([])
        parts[-1].append(line)
    return ["\n".join(it) for it in parts if it]


SYNTAX = set("; , . @ « » : = → ↦ | × record in where elim as open use pub data unfolding".split())


def free_names(text, is_constructor, bound, kind):
    """The names in a clause, a signature, a record or data, or a term, that no binder in it binds.

    A binder is a name in `(x y : A)`, after `λ` or `let`, in the pattern of a clause or of a case, or a field of the
    record that is defined. Its scope is the rest of the brackets around it, or of its case.
    """
    lines = text.split("\n")
    declared = None if kind in ("term", "parameters") else declared_name(lines[0])
    is_body = declared is not None and declared[0] in ("record", "data")
    depth = depth_of_body(lines) if is_body else None
    tokens = []
    is_in_body = False  # a head of several lines may be indented like the fields
    for line in lines:
        begins = is_in_body and len(line) - len(line.lstrip()) == depth
        is_in_body = is_in_body or re.search(r"\bwhere\s*$", line) is not None
        for it in TOKEN.finditer(line):
            tokens.append((it[0], begins))
            begins = False
    stack = [set(bound)]  # what each open bracket has bound
    pending = [set()]  # and what it binds once it is closed: the names of a telescope are not in scope in their type
    field = set()
    at = 0
    if declared:
        stack[0].add(declared[1])
        while tokens[at][0] != declared[1]:
            at += 1
        at += 1
    elif kind not in ("term", "parameters") and not text.lstrip().startswith("unfolding"):
        bind_patterns(tokens, stack[0], is_constructor)
    names = set()
    while at < len(tokens):
        token, begins = tokens[at]
        following = tokens[at + 1][0] if at + 1 < len(tokens) else ""
        if begins:  # the names of fields or constructors, before their colon
            end = at
            while end < len(tokens) and tokens[end][0] not in (":", "(", "{"):
                end += 1
            stack[0] |= field
            if end < len(tokens) and tokens[end][0] == ":":
                field = {it for it, _ in tokens[at:end] if it != "pub"}
                at = end
        elif token in ("(", "{"):
            end = at + 1
            while end < len(tokens) and tokens[end][0] not in ("(", ")", "{", "}", ":", "=", ";", ",", "→", "λ"):
                end += 1
            stop = tokens[end][0] if end < len(tokens) else ""
            pending.append(set())
            if stop == ":" and end > at + 1:
                pending[-1].update(it for it, _ in tokens[at + 1:end])
                at = end
            elif stop == "=" and token == "{" and end == at + 2:  # record { field = .. }, f {x = ..}
                at = end
            stack.append(set())
        elif token in (")", "}", "]"):
            if len(stack) > 1:
                stack.pop()
                stack[-1] |= pending.pop()
        elif token == "[":
            stack.append(set())
            pending.append(set())
            bind_case(tokens, at + 1, stack[-1], is_constructor)
        elif token == "|" and len(stack) > 1:
            stack[-1] = set()
            bind_case(tokens, at + 1, stack[-1], is_constructor)
        elif token == ";" and at + 2 < len(tokens) and tokens[at + 2][0] == "=":
            at += 2  # the next field
        elif token == "λ":
            at += 1
            while at < len(tokens) and tokens[at][0] != ".":
                binder, _, rest = tokens[at][0].partition(".")
                if binder not in "{}(),=":
                    stack[-1].add(binder)
                if rest:  # `λ x.body`
                    if not any(rest.split(".")[0] in it for it in stack):
                        names.add(rest)
                    break
                at += 1
        elif token == "let":
            stack[-1].add(following)
        elif token.startswith((".", '"')) or NUMERAL.match(token) or token in SYNTAX or token in BUILT_IN:
            pass
        elif not any(token.split(".")[0] in it for it in stack) and token.split(".")[0] not in BUILT_IN:
            names.add(token)
        at += 1
    return names


def is_word(token):
    return re.match(r'[^\s(){};,@"=.0-9]', token) is not None and "." not in token


def bind_patterns(tokens, bound, is_constructor):
    """Binds the name of a clause and the variables of its patterns: what stands before its `=`."""
    depth = 0
    for at, (token, _) in enumerate(tokens):
        depth += (token in ("(", "{", "[")) - (token in (")", "}", "]"))
        if token == "=" and depth == 0:
            bound.add(tokens[0][0])
            bound.update(it for it, _ in tokens[:at] if is_word(it) and not is_constructor(it))
            return


def bind_case(tokens, at, bound, is_constructor):
    """Binds the variables of a case, `pattern ↦ ..`."""
    end = at
    while end < len(tokens) and tokens[end][0] not in ("↦", "|", "]"):
        end += 1
    if end < len(tokens) and tokens[end][0] == "↦":
        bound.update(it for it, _ in tokens[at:end] if is_word(it) and not is_constructor(it))
