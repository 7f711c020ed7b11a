"""The functions of a crate, by the names that `rt check` gives them, and where each one's text is.

A name is `crate::module::function`, and of a method `crate::module::Type::method`. The methods of
an impl of a trait are named `crate::module::TypeTrait::method`. A type's module comes before the
module of the impl.
"""
import re

FUNCTION = re.compile(r'( *)(?:pub(?:\([^)]*\))? )?(?:const )?(?:unsafe )?(?:extern "C" )?fn (\w+)')
IMPL = re.compile(r"( *)impl\b(.*)")
TYPE = re.compile(r"(?:pub(?:\([^)]*\))? )?(?:struct|enum|trait) (\w+)")


def module_of(path):
    """The module of a file below `src`, as a list of names."""
    parts = list(path.with_suffix("").parts)
    return [] if parts in (["lib"], ["main"]) else parts


def end_of(lines, first, indent):
    """The last line of the item that begins in a line, or None for a method without a body."""
    if lines[first].rstrip().endswith("{}"):
        return first
    for at in range(first + 1, len(lines)):
        if lines[at].rstrip() in (f"{indent}}}", f"{indent}{{}}"):
            return at
        if lines[at].strip() and not lines[at].startswith(indent):
            return None
    return None


def without_parameters(head):
    """The head of an impl without its type parameters and bounds."""
    head = re.sub(r"\{.*|\bwhere\b.*", "", head)
    while "<" in head:
        shorter = re.sub(r"<[^<>]*>", "", head)
        if shorter == head:
            break
        head = shorter
    return head


def owner_of(head):
    """Type and trait of an impl by its head. The type has no parameters and no path; the trait has
    its parameters after it, as `FromRunFault` of `From<RunFault>`. No trait is '', and the type of
    an impl for one parameter has it after it, as `Machine+WordArray` of `Machine<WordArray>`."""
    words = [word.rpartition("::")[2] for word in without_parameters(head).split()]
    if words[1:2] != ["for"]:
        given = re.match(r"(?:<'\w+>)? \w+<(?:'\w+, )?(\w+)(?:<'\w+>)?>", head)
        return words[0], f"+{given[1]}" if given else ""
    given = re.search(rf"\b{words[0]}<(\w+)> for\b", head)
    return words[2], words[0] + (given[1] if given else "")


def impls_of(lines):
    """First and last line of each impl, with its type and its trait."""
    for at, line in enumerate(lines):
        if found := IMPL.match(line):
            yield at, end_of(lines, at, found[1]), *owner_of(found[2])


def types_of(files):
    """The module of each type of a crate."""
    return {found[1]: module_of(path) for path, text in files.items()
            for found in map(TYPE.match, text.splitlines()) if found}


def place_of(line, impls, homes, module):
    """The module and the type, if there is one, by which a function in a line is named."""
    for first, last, kind, trait in impls:
        if first < line <= last:
            return homes.get(kind, module), [kind + trait]
    return module, []


def functions_of(crate, files):
    """The path of its file, and its first and last line, for the name of each function of a crate;
    `files` has the text of each file by its path below `src`."""
    homes, found = types_of(files), {}
    for path, text in files.items():
        lines = text.splitlines()
        impls = list(impls_of(lines))
        for at, line in enumerate(lines):
            if not (start := FUNCTION.match(line)):
                continue
            last = end_of(lines, at, start[1])
            if last is None:
                continue
            module, owner = place_of(at, impls, homes, module_of(path))
            found.setdefault("::".join([crate, *module, *owner, start[2]]), (path, at, last))
    return found
