#!/usr/bin/env python3
"""Joins the sources of the page to one file, play.html, and writes the policy that allows it, policy.txt. The crate
`club_page` has both as constants.

    python3 page/join.py [--check] [--split]

The stylesheets and the script replace the tags of index.html that name them; a module comes before the modules that import
it. Comments, indentation, empty lines, `import` lines and the word `export` are dropped, and blanks and ends of lines that
the stylesheets and the script do not need. Nothing is renamed, so all modules share one name space. The sources must be
ASCII; each comment of the script has its own line, each statement ends with a semicolon or a block, and no template literal
is nested in another.

--split writes two files, play.html and play.js, for two routes. The policy is the same, since a browser checks the hash of
an external script, too; it does not for a stylesheet, which stays in the page. --check writes nothing: the status is 1 and the
stale files are named if they are not what the sources give.
"""
import base64
import hashlib
import pathlib
import re
import sys

HERE = pathlib.Path(__file__).resolve().parent
CRATE = "../crates/club_page"
LIMIT = 110 * 1000
# The prover checks a literal of a quarter of the limit in seconds, and gives up on one of 87 KB.
PARTS = 4
PIECE = r"(?:\\.|[^\\]){1,99}(?:(?<=[;}>])|$) *|(?:\\.|[^\\]){1,99} *"
# The icon and the manifest are data of the page itself.
ALLOWED = "connect-src 'self'", "img-src data:", "manifest-src data:"
FORBIDDEN = "base-uri", "form-action", "frame-ancestors"
STYLESHEET = re.compile(r'<link rel="stylesheet" href="([\w.]+)">\n')
SCRIPT = re.compile(r'<script type="module" src="([\w.]+)"></script>')
IMPORT = re.compile(r"^import \{[^}]*\} from '\./([\w.]+)';\n", re.MULTILINE)
LITERAL = re.compile(r"('(?:\\.|[^'\\])*'|`(?:\\.|[^`\\])*`|/(?! )(?:\\.|[^/\\\n])+/[a-z]*)")
DECLARED = re.compile(r"^(?:async )?(?:const|let|function|class) (\w+)", re.MULTILINE)


def source(name):
    text = (HERE / name).read_text(encoding="utf-8")
    strange = [at for at, line in enumerate(text.splitlines(), 1) if not line.isascii()]
    if strange:
        sys.exit(f"{name}:{strange[0]} has letters outside of ASCII; see ascii.py")
    return text


def lines_kept(text):
    """The lines without indentation, empty lines and comments."""
    lines = (line.strip() for line in text.splitlines())
    return "".join(f"{line}\n" for line in lines if line and not line.startswith("//"))


def without_comments(text):
    return lines_kept(re.sub(r"/\*.*?\*/|<!--.*?-->", "", text, flags=re.DOTALL))


def joined_style(names):
    style = without_comments("".join(map(source, names)))
    return re.sub(r"(?<=[:,])\s|\n|\s(?=\{)|;(?=\n\})", "", style)


def modules(name, met):
    """The module of that name and all that it imports, in the order of their imports."""
    if name in met:
        return
    met.append(name)
    for other in IMPORT.findall(source(name)):
        yield from modules(other, met)
    yield name


def joined_script(name):
    parts = [re.sub(r"^export ", "", IMPORT.sub("", source(it)), flags=re.MULTILINE) for it in modules(name, [])]
    names = [it for part in parts for it in DECLARED.findall(part)]
    twice = sorted({it for it in names if names.count(it) > 1})
    if twice:
        sys.exit(f"two modules have these names: {' '.join(twice)}")
    return dense("".join(map(lines_kept, parts)))


def dense(script):
    """The script without blanks, last semicolons and last commas that have no meaning; literals are unchanged."""
    parts = re.split(LITERAL, script)
    if any(re.search(r"([+-])\s+\1|//", it) for it in parts[::2]):
        sys.exit("the script has a sign behind a blank behind its like, or a comment behind code")
    for at, code in enumerate(parts[::2]):
        code = re.sub(r"\s*([^\w\s$])\s*", r"\1", code)
        parts[2 * at] = re.sub(r";(?=\})|,(?=[})\]])", "", code)
    return "".join(parts)


def hashed(text):
    return f"'sha256-{base64.b64encode(hashlib.sha256(text.encode()).digest()).decode()}'"


def joined():
    """The markup of index.html, the stylesheet, the script and the policy."""
    text = without_comments(source("index.html"))
    style = joined_style(STYLESHEET.findall(text))
    script = joined_script(SCRIPT.search(text)[1])
    hashes = f"style-src {hashed(style)}", f"script-src {hashed(script)}"
    policy = "; ".join(["default-src 'none'", *hashes, *ALLOWED, *(f"{it} 'none'" for it in FORBIDDEN)])
    return text, style, script, policy


def whole(text, style, script):
    text = STYLESHEET.sub(lambda _: f"<style>{style}</style>\n", text, count=1)
    text = STYLESHEET.sub("", text)
    return SCRIPT.sub(lambda _: f'<script type="module">{script}</script>', text)


def parted(text, style, script):
    """The page with its stylesheet, and a tag with the name and the hash of the script."""
    text = STYLESHEET.sub(lambda _: f"<style>{style}</style>\n", text, count=1)
    text = STYLESHEET.sub("", text)
    named = f'<script type="module" src="play.js" integrity="{hashed(script)[1:-1]}"></script>'
    return SCRIPT.sub(lambda _: named, text)


CODE = """//! What page/join.py makes of the files in page/.

ghost use Rattle.std.specs.Prelude.{\u25cc\u2261\u25cc};
ghost use Rattle.club_page.specs.Joined.{%s, policy};
%s
/// What a browser lets the page do: the value of Content-Security-Policy (W3C, CSP Level 3).
#[tactic(auto, unfolding(crate::specs::Joined::policy))]
pub fn policy() -> &'static str
    ensures { result.now \u2261 policy }
{
    %s
}
"""
CODE_PART = """
/// Part %d of the page, in ASCII.
#[tactic(auto, unfolding(crate::specs::Joined::page_%d))]
pub fn page_%d() -> &'static str
    ensures { result.now \u2261 page_%d }
{
    %s
}
"""
SPECS = """-- What page/join.py makes of the files in page/: the page, in parts, and what a browser lets it do.
use Rattle.std.specs.Prelude.{\u2115, List, codes, \u25cc++\u25cc}
%s
unfoldable pub page : List \u2115
page = %s

unfoldable pub policy : List \u2115
policy = codes %s
"""


SPECS_PART = """
unfoldable pub page_%d : List \u2115
page_%d = codes %s
"""


def parts_of(text):
    """The text in parts of nearly the same size."""
    return [text[len(text) * at // PARTS:len(text) * (at + 1) // PARTS] for at in range(PARTS)]


def code_and_specs(page, policy):
    parts = list(enumerate(parts_of(page), 1))
    names = [f"page_{at}" for at, _ in parts]
    code = "".join(CODE_PART % (at, at, at, at, in_lines(it)) for at, it in parts)
    specs = "".join(SPECS_PART % (at, at, literal(it)) for at, it in parts)
    return (CODE % (", ".join(names), code, in_lines(policy)),
            SPECS % (specs, " ++ ".join(names), literal(policy)))


def literal(text):
    """The text as a literal; code and specs have the same syntax."""
    for letter, told in ("\\", "\\\\"), ('"', '\\"'), ("\n", "\\n"):
        text = text.replace(letter, told)
    return f'"{text}"'


def in_lines(text):
    """The literal on several lines, none of which begins with a blank of the text."""
    return "\\\n     ".join(re.findall(PIECE, literal(text)))


def main():
    text, style, script, policy = joined()
    page = whole(text, style, script)
    if len(page.encode()) > LIMIT:
        sys.exit(f"play.html would have {len(page.encode())} bytes, and may have at most {LIMIT}")
    if "--split" in sys.argv:
        made = {"play.html": parted(text, style, script), "play.js": script}
    else:
        made = {"play.html": page}
    made["policy.txt"] = policy + "\n"
    if "--split" not in sys.argv:
        code, specs = code_and_specs(page, policy)
        made[f"{CRATE}/src/joined.rt"] = code
        made[f"{CRATE}/specs/Joined.antt"] = specs
    if "--check" in sys.argv:
        stale = [it for it in made if not (HERE / it).exists() or (HERE / it).read_text(encoding="utf-8") != made[it]]
        print("not what the sources give:" if stale else "what the sources give", *stale)
        return bool(stale)
    for name, content in made.items():
        (HERE / name).write_text(content, encoding="utf-8")
    print(f"markup {len(text)}, style {len(style)}, script {len(script)}, play.html {len(page.encode())} bytes")
    return 0


if __name__ == "__main__":
    sys.exit(main())
