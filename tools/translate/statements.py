"""Statements as a tree, how they are made better, and how they are written."""
import re

from .expressions import negated, selected


class Assign:
    """variable = value"""

    def __init__(self, name, kind, value):
        self.name, self.kind, self.value = name, kind, value


class Do:
    """A call or a write to memory, as text; of a byte's write the address and the value are kept too."""

    def __init__(self, text, byte=None):
        self.text, self.byte = text, byte


class Return:
    def __init__(self, value=None):
        self.value = value


class Jump:
    """break or continue"""

    def __init__(self, word):
        self.word = word


class If:
    def __init__(self, condition, then, otherwise):
        self.condition, self.then, self.otherwise = condition, then, otherwise


class While:
    """condition None: until a break or a return"""

    def __init__(self, condition, body):
        self.condition, self.body = condition, body


class Switch:
    """arms: the cases of each, None for default, and its statements"""

    def __init__(self, value, arms):
        self.value, self.arms = value, arms


def inner(statement):
    """The lists of statements inside a statement."""
    if isinstance(statement, If):
        return [statement.then, statement.otherwise]
    if isinstance(statement, While):
        return [statement.body]
    return [body for _, body in statement.arms] if isinstance(statement, Switch) else []


# ---------------------------------------------------------------- the same, better


def improve(statements, known, returned):
    """Changes a list of statements in place. known: the variables that surely have a value before it; returned: the function's type."""
    known = set(known)
    for k, statement in enumerate(statements):
        for body in inner(statement):
            improve(body, known, returned)
        statements[k] = as_while(choose_assigned(statement, known))
        if isinstance(statements[k], Assign):
            known.add(statements[k].name)
    store_eight_bytes(statements)
    choose_returned(statements, known, returned)
    return_directly(statements)


def as_while(statement):
    """A loop that begins with `if (c) break;` goes on while c does not hold."""
    if isinstance(statement, While) and not statement.condition and statement.body:
        first = statement.body[0]
        if isinstance(first, If) and is_one(Jump, first.then) and first.then[0].word == "break" and not first.otherwise:
            return While(negated(first.condition), statement.body[1:])
    return statement


def is_one(form, statements):
    return len(statements) == 1 and isinstance(statements[0], form)


SELECTED = ("i8", "i32", "float")


def can_select(kind, condition, values, known):
    """Both values may be made: nothing in them can go wrong, and all that they read has a value. Where a call decides, an if reads better."""
    return kind in SELECTED and not (condition.call and not condition.safe) and all(value.safe and value.reads <= known for value in values)


def choose_assigned(statement, known):
    """if (c) r = a; else r = b; is r = c ? a : b if both may be made."""
    if not isinstance(statement, If) or not all(is_one(Assign, body) for body in (statement.then, statement.otherwise)):
        return statement
    a, b = statement.then[0], statement.otherwise[0]
    if a.name != b.name or not can_select(a.kind, statement.condition, (a.value, b.value), known):
        return statement
    return Assign(a.name, a.kind, selected(a.kind, statement.condition, a.value, b.value))


def choose_returned(statements, known, returned):
    """if (c) return a; return b; likewise, as often as it is at the end."""
    while len(statements) > 1 and isinstance(statements[-1], Return) and isinstance(statements[-2], If):
        last, before = statements[-1], statements[-2]
        if not is_one(Return, before.then) or before.otherwise or not last.value:
            break
        values = before.then[0].value, last.value
        if not can_select(returned, before.condition, values, known):
            break
        statements[-2:] = [Return(selected(returned, before.condition, *values))]


def return_directly(statements):
    """x = e; return x; is return e."""
    if len(statements) > 1 and isinstance(statements[-1], Return) and isinstance(statements[-2], Assign) and statements[-1].value:
        if statements[-1].value.text == statements[-2].name:
            statements[-2:] = [Return(statements[-2].value)]


def store_eight_bytes(statements):
    """The bytes of a number, the lowest first, put one after the other: put_eight."""
    for k in range(len(statements) - 7):
        run = [s.byte if isinstance(s, Do) else None for s in statements[k:k + 8]]
        if not all(run):
            continue
        address, value = run[0]
        number = re.fullmatch(r"\(uint8_t\)\((\w+) % 256\)", value.text)
        base = address.parts[0] if address.parts else address.closed()
        # neither may be changed by the bytes: they are variables whose address nobody has
        if number and not (address.memory or value.memory) and all(
                one.parts == (base, str(n)) and byte.text == f"(uint8_t)(({number[1]} >> {8 * n}) % 256)" for n, (one, byte) in enumerate(run) if n):
            statements[k:k + 8] = [Do(f"put_eight({address.text}, {number[1]});")]
            return store_eight_bytes(statements)


# ---------------------------------------------------------------- as text


def lines_of(statements, depth=1):
    return [line for statement in statements for line in written(statement, depth)]


def written(statement, depth):
    indent = "    " * depth
    if isinstance(statement, Assign):
        return [f"{indent}{statement.name} = {statement.value.text};"]
    if isinstance(statement, Do):
        return [indent + statement.text]
    if isinstance(statement, Return):
        return [f"{indent}return {statement.value.text};" if statement.value else f"{indent}return;"]
    if isinstance(statement, Jump):
        return [f"{indent}{statement.word};"]
    if isinstance(statement, If):
        return written_if(statement, depth)
    if isinstance(statement, While):
        head = f"while ({statement.condition.text}) {{" if statement.condition else "for (;;) {"
        return [indent + head, *lines_of(statement.body, depth + 1), indent + "}"]
    out = [f"{indent}switch ({statement.value.text}) {{"]
    for cases, body in statement.arms:
        out += [indent + ("default:" if case is None else f"case {case}:") for case in cases]
        out += lines_of(body, depth + 1)
    return out + [indent + "}"]


def written_if(statement, depth):
    indent = "    " * depth
    head = f"{indent}if ({statement.condition.text}) "
    then = lines_of(statement.then, depth + 1)
    if not statement.otherwise and len(then) == 1 and then[0].strip() in ("break;", "continue;", "return;"):
        return [head + then[0].strip()]
    out = [head + "{", *then]
    if not statement.otherwise:
        return out + [indent + "}"]
    otherwise = lines_of(statement.otherwise, depth)
    if len(statement.otherwise) == 1 and isinstance(statement.otherwise[0], If) and otherwise[0].endswith("{"):
        return out + [f"{indent}}} else {otherwise[0].strip()}", *otherwise[1:]]
    return out + [indent + "} else {", *lines_of(statement.otherwise, depth + 1), indent + "}"]
