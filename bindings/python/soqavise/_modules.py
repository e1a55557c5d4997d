"""The modules of standards, whose texts are in a folder, from which a schema takes those that it
needs."""
from __future__ import annotations

import functools
import os
import pathlib
import re
from typing import Dict, Iterable, List, NamedTuple, Optional, Set

# Comments and strings, which are skipped, words, and what is between a module's name and its types.
_TOKEN = re.compile(
    r'--.*?(?:--|$)|/\*.*?(?:\*/|\Z)|"[^"]*"?|[A-Za-z](?:-?\w)*|::=|[{}]', re.MULTILINE | re.DOTALL
)


class _Names(NamedTuple):
    """What a text says of names."""

    imports: Dict[str, List[str]]  # for each module of the text the modules that it imports from
    assigned: Set[str]  # the names before `::=`, and those before a parameter or a value in braces


def _names(text: str) -> _Names:
    tokens = [it for it in _TOKEN.findall(text) if not it.startswith(("--", "/*", '"'))]
    names, before_brace = _Names({}, set()), ""
    imports: List[str] = []
    for token, following in zip(tokens, tokens[1:]):
        if following == "DEFINITIONS":
            # The name of a module may have an identifier in braces after it.
            imports = names.imports.setdefault(before_brace if token == "}" else token, [])
        elif token == "FROM":
            imports.append(following)
        elif following in ("::=", "{"):
            names.assigned.add(token)
            before_brace = token
    return names


@functools.lru_cache(maxsize=None)
def _folder() -> Optional[pathlib.Path]:
    """Returns the folder with the texts: that which SOQAVISE_MODULES names, or else that which is
    installed with this package, that of the repository that has this file, or that which is
    installed with the library."""
    named = os.environ.get("SOQAVISE_MODULES")
    if named:
        return pathlib.Path(named)
    above = list(pathlib.Path(__file__).resolve().parents)
    library = pathlib.Path(os.environ.get("SOQAVISE_LIBRARY") or __file__).resolve()
    folders = [folder / "share/soqavise/modules" for folder in above[2:5]]
    folders += [folder / "modules" for folder in above[3:4]] + [
        library.parent.parent / "share/soqavise/modules"
    ]
    return next((folder for folder in folders if (folder / "certificates.asn1").is_file()), None)


@functools.lru_cache(maxsize=None)
def _texts() -> Dict[str, str]:
    """Returns the texts by the names of their files."""
    folder = _folder()
    paths = sorted(folder.glob("*.asn1")) if folder else []
    return {path.name: path.read_text("utf-8") for path in paths}


@functools.lru_cache(maxsize=None)
def _names_of(file: str) -> _Names:
    return _names(_texts()[file])


@functools.lru_cache(maxsize=None)
def _files() -> Dict[str, str]:
    """Returns the file of each module. The name of each begins a line with DEFINITIONS."""
    heads = (
        (file, head) for file, text in _texts().items() for head in text.split(" DEFINITIONS")[:-1]
    )
    return {head.rpartition("\n")[2]: file for file, head in heads}


def _modules_with(type: str) -> List[str]:
    """Returns the modules of the files that have the type. Each assignment begins a line."""
    files = [file for file, text in _texts().items() if f"\n{type} ::= " in text]
    return [module for file in files for module in _names_of(file).imports]


def _nowhere(type: str) -> FileNotFoundError:
    """Returns the error of a built-in type without any text."""
    folder = _folder()
    found = f"{folder} has no module" if folder else "the folder share/soqavise/modules isn't found"
    return FileNotFoundError(
        f"{type}: {found}; the variable SOQAVISE_MODULES may name that of the built-in modules"
    )


def needed(own: Iterable[str], type: str) -> Dict[str, str]:
    """Returns the texts of the built-in modules, by the names of their files, that these texts
    import from, directly or not, and of those that have the type if these texts don't.

    A module of these texts takes the place of the built-in one with its name. Raises
    FileNotFoundError if there are no texts at all.
    """
    given = [_names(text) for text in own]
    if not given and not _texts():
        raise _nowhere(type)
    defined = {module for names in given for module in names.imports}
    waiting = [
        module for names in given for imports in names.imports.values() for module in imports
    ]
    module, point, name = type.rpartition(".")
    if point:
        waiting.append(module)
    elif not any(name in names.assigned for names in given):
        waiting += _modules_with(name)
    return {file: _texts()[file] for file in sorted(_reached(waiting, defined))}


def _reached(waiting: List[str], defined: Set[str]) -> Set[str]:
    """Returns the files of the built-in modules that are waiting, except those that are defined,
    and of those that they import from."""
    files, seen = set(), set(defined)
    while waiting:
        module = waiting.pop()
        if module in seen:
            continue
        seen.add(module)
        file = _files().get(module)
        if file is not None:
            files.add(file)
            waiting += _names_of(file).imports.get(module, [])
    return files
