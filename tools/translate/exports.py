"""The calls as the header declares them (tools/header.py reads it), and whether the module exports them so."""
from header import Header

from .module import stop

# how a type of the module stands in the header
NUMBERS = {"i32": "uint32_t", "i64": "cinorbis_size"}


class Declared:
    """A call: the type of its result, its arguments as C has them, and their names."""

    def __init__(self, call):
        self.result, self.arguments = call.returned, call.arguments
        self.names = [argument.name for argument in call.arguments]
        self.text = ", ".join(map(written, call.arguments)) or "void"


def written(argument):
    star = "*" if argument.pointer and argument.count is None else ""
    count = f"[{argument.count}]" if argument.count is not None else ""
    return f"{'const ' if argument.const else ''}{argument.type} {star}{argument.name}{count}"


def declared_calls(text):
    """The header's version, and its calls by their names."""
    header = Header(text)
    return header.constants["VERSION"], {name: Declared(call) for name, call in header.calls.items()}


def check_export(function, declared):
    def fits(type_, argument):
        return argument.pointer if type_ == "ptr" else not argument.pointer and NUMBERS.get(type_) == argument.type

    given = function.args
    if declared.result != NUMBERS.get(function.type) or len(given) != len(declared.arguments) or not all(
            fits(type_, argument) for (type_, _), argument in zip(given, declared.arguments)):
        stop("an export unlike the header", function.name)
