"""Writes the classes of our language as C++ that compilers take, and many sources as one text, each in a namespace of its own."""


def class_text(one, bodies=True):
    """One class, with empty bodies. Without bodies each function is only declared, as an object file wants it.

    All bases are public: the access of a base decides no layout, and a compiler refuses covariant results by a private one.
    """
    bases = ", ".join(f"{'virtual ' if base.virtual else ''}public {base.name}" for base in one.bases)
    lines = [f"{one.tag} {one.name}{' : ' + bases if bases else ''} {{"]
    access = ""
    for part in one.parts:
        if part.access != access:
            access = part.access
            lines.append(f"{access}:")
        lines.append("  " + (function_text(part, bodies) if hasattr(part, "kind") else field_text(part)))
    return "\n".join(lines) + "\n};\n"


def field_text(part):
    length = "" if part.length is None else f"[{part.length}]"
    width = "" if part.width is None else f" : {part.width}"
    return f"{part.type} {part.name}{length}{width};"


def function_text(part, bodies):
    parameters = ", ".join(f"{kind} {name}" for kind, name in part.parameters)
    virtual = "virtual " if part.virtual else ""
    result = part.result + " " if part.result else ""
    end = " = 0;" if part.pure else " {}" if bodies else ";"
    return f"{virtual}{result}{part.name}({parameters}){end}"


def source_text(found, bodies=True):
    """All classes of a source, forward declarations first."""
    ahead = "".join(f"{one.tag} {one.name};\n" for one in found.values())
    return ahead + "".join(class_text(one, bodies) for one in found.values())


def in_namespace(name, text):
    return f"namespace {name} {{\n{text}}}\n"
