"""The public names of the crates, by what each one is in: a type, a trait, a module or a crate.

In a type are the methods and constants of its impls, the variants of an enum, and the methods that
a derive writes. Types of one name count as one, and so do modules. A public item of a private
module is public: contracts and documents name it. What a macro writes is not seen.
"""
import re
from collections import defaultdict

from rattle_functions import owner_of

PLACES = ("crates/*/src/**/*.rt", "record/rust/src/**/*.rs")
CRATE_OF_RUST = "lockreplay_record"
HOW = r"(?:const |unsafe |extern \"C\" )*"
ITEM = re.compile(rf"^pub {HOW}(?:fn|struct|enum|trait|type|mod|const|static) (\w+)", re.MULTILINE)
USED = re.compile(r"^pub use ([^;]+);", re.MULTILINE)
BLOCK = re.compile(r"^((?:#\[[^\n]*\]\n)*)(?:pub (struct|enum|trait) (\w+)|impl\b)([^{;]*)"
                   r"(?:;|\{\}|\{\n(.*?)^\})", re.MULTILINE | re.DOTALL)
MEMBER = re.compile(rf"^    (pub )?{HOW}(?:fn|const|type) (\w+)", re.MULTILINE)
VARIANT = re.compile(r"^    ([A-Z]\w*)", re.MULTILINE)
DERIVED = {"Clone": "clone", "PartialEq": "eq", "Debug": "fmt", "Hash": "hash", "Drop": "drop",
           "Default": "default", "Error": "fmt"}


def public_names(top):
    """The set of public names in each type, trait, module and crate, by its name."""
    found = defaultdict(set)
    for path in (path for place in PLACES for path in top.glob(place)):
        text = path.read_text()
        found[module_of(path.relative_to(top))] |= items_in(text)
        for block in BLOCK.finditer(text):
            owner, names = members_of(*block.groups(""))
            found[owner] |= names
    return found


def module_of(path):
    """The crate or the module that a file is."""
    if path.stem in ("lib", "main"):
        return path.parts[1] if path.parts[0] == "crates" else CRATE_OF_RUST
    return path.parent.name if path.stem == "mod" else path.stem


def items_in(text):
    """The public items of a file, and what it passes on of others."""
    used = " ".join(USED.findall(text))
    return {*ITEM.findall(text), *re.findall(r"\b(\w+)\b(?!::)", used)}


def members_of(attributes, kind, name, head, body):
    """A type or a trait, and the public names that its definition or an impl puts into it."""
    if not kind:
        owner, trait = owner_of(" ".join(head.split()))
        is_own = not trait or trait.startswith("+")
        return owner, {name for is_public, name in MEMBER.findall(body) if is_public or not is_own}
    words = re.findall(r"\w+", " ".join(re.findall(r"derive\((.*)\)", attributes)))
    names = {DERIVED[word] for word in words if word in DERIVED}
    if kind == "trait":
        names |= {name for _, name in MEMBER.findall(body)}
    return name, names | set(VARIANT.findall(body) if kind == "enum" else ())
