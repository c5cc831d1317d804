"""What the files of the crates hold, by name: the items of antt files (specs/, proofs/) and of Rattle sources (src/).

Comments and layout are no part of an item's text. Read by tools/moved, tools/guard and tools/statements.
"""
import io
import re
import subprocess
import tarfile
from pathlib import Path


# ---- trees of files, by path from the repository's root
def wanted(path):
    return path == "crates.txt" or (path.startswith("crates/") and path.endswith((".rt", ".antt", ".edit")))


def tree_at(commit):
    """The files of a commit."""
    made = subprocess.run(["git", "archive", "--format=tar", commit], stdout=subprocess.PIPE, check=True)
    with tarfile.open(fileobj=io.BytesIO(made.stdout)) as tar:
        return {m.name: tar.extractfile(m).read().decode() for m in tar.getmembers() if m.isfile() and wanted(m.name)}


def tree_here(root):
    """The files under a folder."""
    root = Path(root)
    # out/ is what rt makes
    made = [part for crate in sorted((root / "crates").iterdir()) if crate.is_dir() for part in sorted(crate.iterdir()) if part.name != "out"]
    files = [root / "crates.txt", *(f for part in made for f in sorted(part.rglob("*")))]
    named = [(f, f.relative_to(root).as_posix()) for f in files if f.is_file()]
    return {name: f.read_text(encoding="utf-8") for f, name in named if wanted(name)}


def crates_of(tree):
    """The crates that crates.txt lists, in its order."""
    lines = [line.split("#")[0] for line in tree.get("crates.txt", "").split("\n")]
    # the name stands first; a static library has a second word behind it
    return [line.split(":")[0].split()[0] for line in lines if line.split(":")[0].strip() and ":" in line]


def proof_of(path):
    """The function that a file of proofs/ proves, as crates/time/proofs/seconds/Answers.antt; nothing where it holds lemmas."""
    m = re.fullmatch(r"crates/\w+/proofs/(.+)/(?:Invariants|Answers|Proof)\.antt", path)
    return m.group(1).replace("/", "::") if m else ""


def plain(text):
    """The text on one line, whatever its layout: no blank inside brackets, no comma or semicolon before one that closes."""
    text = re.sub(r"([(\[{]) ", r"\1", " ".join(text.split()))
    return re.sub(r"[,;]? ?([)\]}])", r"\1", text)


# ---- antt
class Item:
    """A name that an antt file defines."""

    def __init__(self, word, pub, name, head, line, note, around):
        self.word = word  # abbrev, unfoldable, record, data, ruleset; or nothing
        self.pub = pub
        self.name = name
        self.head = head  # what stands from the name on up to its first equation: its type, or the whole record
        self.rest = []  # its equations
        self.line = line
        self.note = note  # the comment lines directly above
        self.around = around  # the parameters of the modules that it stands in

    def type(self):
        return plain(self.head).split(" : ", 1)[-1]

    def text(self):
        return plain(" ".join([*self.around, self.word, self.head, *self.rest]))

    def stated(self):
        """The item without its equations: what a law says."""
        return plain(" ".join([*self.around, self.head]))

    def kind(self):
        """statement, relation, record, data, definition or law."""
        if self.word in ("record", "data"):
            return self.word
        if self.name[0].isupper() and re.search(r"Type \d$", self.type()):
            return "statement" if re.fullmatch(r"Type \d", self.type()) and not self.around else "relation"
        return "definition" if self.word in ("abbrev", "unfoldable") else "law"


def uncommented(line):
    """A line of antt without its comment."""
    if "--" not in line:
        return line.rstrip()
    quoted = False
    for i, c in enumerate(line):
        if c == '"' and (i == 0 or line[i - 1] != "\\"):
            quoted = not quoted
        if not quoted and line.startswith("--", i) and (i == 0 or line[i - 1] in " \t"):
            return line[:i].rstrip()
    return line.rstrip()


HEAD = re.compile(r"(?:(abbrev|unfoldable)\s+)?(?:(pub)\s+)?(?:(abbrev|unfoldable|record|data|ruleset)\s+)?(\S+)(.*)", re.S)


def chunks(text):
    """The pieces that a file is made of, one after the other: (line, comment above, modules around, code)."""
    lines = text.split("\n")
    codes = [uncommented(line) for line in lines]
    modules = []  # (indentation of the module, of what it holds, its parameters)
    at = 0
    while at < len(codes):
        if not codes[at]:
            at += 1
            continue
        indent = len(codes[at]) - len(codes[at].lstrip())
        while modules and indent <= modules[-1][0]:
            modules.pop()
        end = at + 1
        is_module = codes[at].lstrip().startswith("module ")
        while end < len(codes) and not (is_module and codes[end - 1].endswith("where")):
            if codes[end] and len(codes[end]) - len(codes[end].lstrip()) <= indent:
                break
            end += 1
        code = "\n".join(codes[at:end])
        if is_module:
            modules.append((indent, plain(code)))
        else:
            first = at
            while first > 0 and lines[first - 1].lstrip().startswith("--"):
                first -= 1
            note = [line.strip().lstrip("-").strip() for line in lines[first:at] if not line.lstrip().startswith("-- ----")]
            yield at + 1, note, [m[1] for m in modules], code.strip()
        at = end


def antt_items(text):
    """The items of an antt file, in its order."""
    items = []
    for line, note, around, code in chunks(text):
        if re.match(r"(pub\s+)?(use|mod)\s", code):
            continue
        head = HEAD.match(code)
        if not head:
            continue
        word, pub, second, name, rest = head.groups()
        word = word or second or ""
        if word in ("record", "data", "ruleset") or re.match(r"\s*:(\s|$)", rest):
            items.append(Item(word, bool(pub), name, name + rest, line, note, around))
        elif items:
            items[-1].rest.append(code)
    return items


def is_statement(path, item):
    """Whether an item of specs/ says something by itself: an abbreviation of a type, or a record without parameters among the promises."""
    if not item.pub or item.name == "Promises":
        return False
    bare = item.kind() == "record" and not item.around and re.match(r"\S+ : Type \d where", plain(item.head))
    return item.kind() == "statement" or bool(bare and (path.startswith("crates/promises/") or path.endswith("/Statements.antt")))


def statements(tree):
    """Every statement of every crate, in the order of crates.txt: (file, item)."""
    for crate in crates_of(tree):
        for path in sorted(p for p in tree if p.startswith(f"crates/{crate}/specs/")):
            for item in antt_items(tree[path]):
                if is_statement(path, item):
                    yield path, item


def antt_uses(text):
    """What an antt file's `use` lines bring in: alias -> path of a module, and name -> path of the module that has it."""
    aliases, names = {}, {}
    for _, _, _, code in chunks(text):
        whole = re.fullmatch(r"use\s+(\S+?)(?:\.\{(.*)\})?(?:\s+as\s+(\S+))?", plain(code))
        if not whole:
            continue
        path, listed, alias = whole.groups()
        if listed is None:
            aliases[alias or path.split(".")[-1]] = path
        for one in (listed or "").split(","):
            words = one.split()
            if words:
                names[words[-1]] = (path, words[0])
    return aliases, names


# ---- Rattle
class Function:
    def __init__(self, module, owner, name, pub, extern, marks, signature, clauses, body, line, note):
        self.module = module  # the file's module: nothing for lib.rt and main.rt
        self.owner = owner  # the type whose method it is; or nothing
        self.name = name
        self.pub = pub  # `pub`, and not pub(crate)
        self.extern = extern
        self.marks = marks  # its attributes, as unsafe(no_mangle)
        self.signature = signature
        self.clauses = clauses  # (requires or ensures, label, what is said); a clause that stands alone has no label
        self.body = body
        self.line = line
        self.note = note

    def path(self):
        return [*self.module, *([self.owner] if self.owner else []), self.name]

    def contract(self):
        return plain(" ".join([self.signature, *(" ".join(c) for c in self.clauses)]))


# a text, a byte or a character; a lifetime is none of these
LITERAL = re.compile(r'b?"(?:\\.|[^"\\])*"|\bb\'(?:\\.|[^\'\\])\'|(?<!\w)\'(?:\\[^\'\n]+|[^\'\\\n])\'', re.S)
LITERAL_OR_COMMENT = re.compile(LITERAL.pattern + "|//[^\n]*", re.S)
LITERAL_OR_BRACKET = re.compile(LITERAL.pattern + r"|[()\[\]{};]", re.S)


def uncommented_rt(text):
    """A Rattle source with each comment blanked out, so that lines and places stay."""
    return LITERAL_OR_COMMENT.sub(lambda m: " " * len(m.group()) if m.group().startswith("//") else m.group(), text)


def behind(text, at, until):
    """The place behind the first `until` from `at` on that stands in no literal and in no bracket opened since."""
    depth = 0
    for m in LITERAL_OR_BRACKET.finditer(text, at):
        depth += (m.group() in "([{") - (m.group() in ")]}")
        if depth == 0 and m.group() == until:
            return m.end()
    raise ValueError("a bracket that nothing closes")


def closed(text, at):
    """The place behind the brace that closes the one at this place."""
    return behind(text, at, "}")


FN = re.compile(r'^[ \t]*(pub(?:\([a-z]+\))?[ \t]+)?(?:(?:const|unsafe)[ \t]+)*(extern[ \t]+"C"[ \t]+)?fn[ \t]+(\w+)', re.M)
# `ghost name: { TYPE }`, `requires { .. }`, `ensures name { .. }`; with a star it speaks of memory
CLAUSE = re.compile(r"\s*(ghost|requires|ensures)\b(\*?)\s*(\w*)\s*:?\s*(?=\{)")


def module_of(path):
    """The module of a source file: crates/NAME/src/a/b.rt is a, b."""
    parts = path.split("/src/", 1)[1][: -len(".rt")].split("/")
    return [] if parts in (["lib"], ["main"]) else [p for p in parts if p != "mod"]


def above(lines, at):
    """The comment lines directly above line number `at` (from 0), and the attributes there."""
    note, marks = [], []
    while at > 0 and (lines[at - 1].lstrip().startswith("//") or re.match(r"\s*#\[", lines[at - 1])):
        at -= 1
        line = lines[at].strip()
        if line.startswith("//"):
            note.insert(0, line.lstrip("/").strip())
        else:
            marks.insert(0, line.removeprefix("#[").removesuffix("]"))
    return note, marks


def functions(path, text):
    """The functions of a source file, in its order."""
    code, lines = uncommented_rt(text), text.split("\n")
    owners = []
    for m in re.finditer(r"^impl\b[^{;]*?(\w+)(?:<[^{;]*>)?\s*\{", code, re.M):
        owners.append((m.end(), closed(code, m.end() - 1), m.group(1)))
    found = []
    for m in FN.finditer(code):
        start = next((i for i in range(m.end(), len(code)) if code[i] == "{"), None)
        clause = re.compile(r"\b(ghost|requires|ensures)\b").search(code, m.end())
        ends = [x for x in (start, clause and clause.start()) if x is not None]
        if not ends:
            continue
        head_end = min(ends)
        signature, at, clauses = code[m.start() : head_end], head_end, []
        while True:
            c = CLAUSE.match(code, at)
            if not c:
                break
            end = closed(code, c.end())
            clauses.append((c.group(1) + c.group(2), c.group(3), plain(code[c.end() + 1 : end - 1])))
            at = end
        body_at = code.index("{", at)
        body = code[body_at : closed(code, body_at)]
        owner = next((name for a, b, name in owners if a <= m.start() < b), "")
        line = code.count("\n", 0, m.start()) + 1
        pub = (m.group(1) or "").strip() == "pub"
        note, marks = above(lines, line - 1)
        found.append(Function(module_of(path), owner, m.group(3), pub, bool(m.group(2)), marks, plain(signature), clauses, plain(body), line, note))
    return found


TYPE = re.compile(r"^(?:pub(?:\([a-z]+\))?[ \t]+)?(struct|enum|const|type)[ \t]+(\w+)", re.M)


def types(path, text):
    """The structs, enums and constants of a source file: (name, text)."""
    code = uncommented_rt(text)
    found = []
    for m in TYPE.finditer(code):
        in_braces = m.group(1) in ("struct", "enum") and re.compile(r"\s*\{").match(code, m.end())
        end = behind(code, m.end(), "}" if in_braces else ";")
        found.append(("::".join([*module_of(path), m.group(2)]), plain(code[m.start() : end])))
    return found
