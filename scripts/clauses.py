"""The clauses of the sources, for scripts/check_clauses and scripts/list_clauses: which function of a file has which, and their texts."""
import re

CLAUSE = re.compile(r"\s*(requires|ensures)\*? (?:([a-z_0-9]+) )?\{")
FUNCTION = re.compile(r"(?:^|[ (])fn ([a-z_0-9]+)[<(]")


def source_of(module):
    """Returns the file of a module such as `saa_core::lock`."""
    crate, *rest = module.split("::")
    return f"crates/{crate}/src/{'/'.join(rest)}.rt"


def clauses_of(path):
    """Returns the clauses of a file in order: of each its function, whether that is public, its name (its kind if it has none), and its text."""
    found, name, is_public, in_trait, open_text, depth = [], "", False, False, None, 0
    with open(path, encoding="utf-8") as file:
        lines = file.read().splitlines()
    for line in lines:
        if line.lstrip().startswith("//"):
            continue
        if open_text is not None:
            open_text.append(line.strip())
        else:
            in_trait = not line.startswith("}") and (in_trait or bool(re.match(r"pub trait |impl\b.* for ", line)))
            function = FUNCTION.search(line)
            if function:
                name, is_public = function[1], in_trait or bool(re.match(r"\s*pub ", line))
            clause = CLAUSE.match(line)
            if not clause:
                continue
            open_text, depth = [line.strip()], 0
            found.append((name, is_public, clause[2] or clause[1], open_text))
        depth += line.count("{") - line.count("}")
        if depth <= 0:
            open_text = None
    return found
