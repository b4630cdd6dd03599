"""The crates of crates.txt by kind, and how a path of theirs is spelled as one name: for `contracts` and `ties`."""
import os
import re


def kinds():
    """Each crate of crates.txt, and whether it is a `program`, a `staticlib` or a `library`."""
    found = {}
    with open("crates.txt", encoding="utf-8") as f:
        for line in f:
            name, colon, _ = line.split("#")[0].partition(":")
            if colon:
                crate, *kind = name.split()
                found[crate] = kind[0] if kind else "program" if os.path.exists(f"crates/{crate}/src/main.rt") else "library"
    return found


def libraries():
    """The crates that another crate can use. A static library has only exports."""
    return [crate for crate, kind in kinds().items() if kind == "library"]


def snake(path):
    """`answer::TypeProperties::is_const` as `answer_type_properties_is_const`, the name of a field."""
    return re.sub(r"(?<=[a-z0-9])(?=[A-Z])", "_", path.replace("::", "_")).lower()


def camel(path):
    """`field::fixed::u16_at` as `FieldFixedU16At`, the name of a definition that says something."""
    return "".join(word[0].upper() + word[1:] for word in snake(path).split("_"))
