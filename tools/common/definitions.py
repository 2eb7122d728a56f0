"""The records, the data types and the functions of `.antt` files, and which parts of their arguments functions use."""
import re


def code_of(text):
    """A file without comments."""
    return re.sub(r"--[^\n]*", "", text)


def split(text, separator):
    """The parts of a text between separators that are outside brackets."""
    parts, depth, start = [], 0, 0
    for place, char in enumerate(text):
        depth += char in "({["
        depth -= char in ")}]"
        if char == separator and not depth:
            parts.append(text[start:place].strip())
            start = place + 1
    return [part for part in [*parts, text[start:].strip()] if part]


def types_of(signature):
    """The types of the arguments of a function or a constructor. `(a b : T)` is two arguments."""
    found = []
    for part in split(signature, "→")[:-1]:
        groups = re.findall(r"\(([^():]*):((?:[^()]|\([^()]*\))*)\)", part)
        found += [kind.strip() for names, kind in groups for _ in names.split()] if groups else [part]
    return found


def records_of(code):
    """The names of the fields of each record."""
    found = re.findall(r"^(?:pub )?record (\w+)[^\n]* where\n((?:  [^\n]*\n)+)", code, re.M)
    return {name: re.findall(r"^  pub (\w+) :", fields, re.M) for name, fields in found}


def constructors_of(code):
    """The types of the arguments of each constructor."""
    found = {}
    for indent, cases in re.findall(r"^( *)(?:pub )?data [^\n]* where\n((?:\1 +[^\n]*\n)+)", code, re.M):
        case = rf"^{indent}  (\w+) : (.*(?:\n{indent}   .*)*)"
        found |= {name: types_of(kind) for name, kind in re.findall(case, cases, re.M)}
    return found


def functions_of(code):
    """The signature of each public function, and its equations: each the patterns and the body."""
    found = {}
    for indent, name, kind in re.findall(r"^( *)(?:abbrev |unfoldable )*pub (\w+) : (.*(?:\n +→.*)*)", code, re.M):
        equation = rf"^{indent}{name} (.*?)\s?=((?:.*)(?:\n{indent} +.*)*)"
        found[name] = (kind, re.findall(equation, code, re.M))
    return found


def result_of(function):
    """The type of what a function returns."""
    return split(function[0], "→")[-1]


def variables(pattern, kind, constructors):
    """The variables of a pattern, each with its type. One stands for a constructor with too few or too many parts."""
    inner = pattern[1:-1] if pattern.startswith("(") else pattern
    head, *others = split(inner, " ")
    if head not in constructors:
        return {} if head in ("[]", "None") or others else {head: kind}
    if len(others) != len(constructors[head]):
        return {f"each part of {head}": ""}
    found = {}
    for part, its in zip(others, constructors[head]):
        found |= variables(part, its, constructors)
    return found


def unused(functions, records, constructors):
    """What functions do not use: variables in an equation, and fields of a record in all equations.

    An equation whose body is `[]`, or that has a pattern `None`, may leave out variables. The fields of a record that
    is only passed on are not looked for."""
    found, used = [], {}
    for of, (kind, equations) in functions.items():
        for left, body in equations:
            patterns = split(left, " ")
            if body.strip() == "[]" or "None" in patterns:
                continue
            for pattern, its in zip(patterns, types_of(kind)):
                for name, record in variables(pattern, its, constructors).items():
                    uses = re.findall(rf"(?<![\w.]){name}(?![\w-])(?:\.(\w+))?", body)
                    found += [] if uses else [f"{of}: {name}"]
                    if record in records and any(uses):
                        used.setdefault(record, set()).update(uses)
    return found + [f"{name}.{field}" for name in used for field in records[name] if field not in used[name]]
