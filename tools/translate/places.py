"""Values and places: which places of memory are variables, which are mere values, and what functions hand over by value.

The module keeps everything in memory: each variable, each argument and each step of an expression has a place of its own. Here the places go
that are not needed. What is left afterwards is written by statements.py."""
import re
from collections import Counter, defaultdict

from .module import Instruction, Place, is_name, stop

SLICE = (None, 16, 8)  # an address and a length


def simplify(function, kept):
    """Takes out the places that are no variables; those in kept have a name in the source and stay."""
    join_blocks(function)
    take_places(function)
    whole = whole_places(function)
    names = find_bools(function, whole)
    replace_loads(function, whole - set(kept), names)
    drop_unused(function)
    find_addresses(function)


def join_blocks(function):
    """Takes out blocks that nothing leads to, and joins a block with the only one that leads to it by a jump alone. The labels of
    loops stay, since the statements are made by them."""
    blocks, reached, ahead = function.blocks, set(), ["start"]
    while ahead:
        label = ahead.pop()
        if label not in reached:
            reached.add(label)
            ahead += blocks[label][-1].targets()
    for label in set(blocks) - reached:
        del blocks[label]
    ways = Counter(to for block in blocks.values() for to in block[-1].targets())
    for label in list(blocks):
        while label in blocks and blocks[label][-1].form == "jump":
            to = blocks[label][-1].to
            if ways[to] != 1 or to == label or re.match("after|loop", to):
                break
            blocks[label][-1:] = blocks.pop(to)


def take_places(function):
    for i in function.instructions():
        if i.form == "place":
            function.places[i.result] = Place(i.type, int(i.size or 0), int(i.align))
    for block in function.blocks.values():
        block[:] = [i for i in block if i.form != "place"]


def whole_places(function):
    """The places of one number that are only read and written, and by nothing but that type: nobody else can have their address."""
    whole = {name for name, place in function.places.items() if place.type}
    for i in function.instructions():
        if i.form in ("load", "store"):
            place = function.places.get(i.at)
            if place and place.type and place.type != i.type:
                stop("a place of one number is used as another", f"{function.origin} {i.at}")
            whole -= {i.value} if i.form == "store" else set()
        else:
            whole -= set(i.operands())
    return whole


def find_bools(function, whole):
    """A byte that is only written from a bool, and only read as one, becomes a bool. Returns the values that now are another."""
    made = {i.result: i for i in function.instructions() if i.result}
    read = {i.result: i.at for i in function.instructions() if i.form == "load"}
    bools = {name for name in whole if function.places[name].type == "i8"}
    from_bool = lambda value: value in made and made[value].form == "cast" and (made[value].how, made[value].type) == ("zext", "i1")
    for i in function.instructions():
        if i.form == "store" and not from_bool(i.value) or i.form == "load" and not i.bool:
            bools.discard(i.at)
        if not (i.form == "cast" and i.how == "trunc nuw" and i.to == "i1"):
            bools -= {read[value] for value in i.operands() if value in read}
    names = {}
    for i in function.instructions():
        if i.form == "cast" and read.get(i.value) in bools:
            names[i.result] = i.value
        elif i.form in ("load", "store") and i.at in bools:
            i.type = "i1"
            if i.form == "store":
                i.value = made[i.value].value
    function.places.update({name: Place("i1", 0, 1) for name in bools})
    return names


def replace_loads(function, places, names):
    """A place that is written before it is read in every block that reads it is no variable but the value written last; so is one that is
    written once, in the first block, with what never changes."""
    stores, passing = defaultdict(list), set(places)
    for label, block in function.blocks.items():
        written = set()
        for i in block:
            if i.form == "load" and i.at not in written:
                passing.discard(i.at)
            elif i.form == "store":
                written.add(i.at)
                stores[i.at].append((label, i.value))
    arguments = {name for _, name in function.args}
    lasting = lambda value: value in arguments or value in function.places or not is_name(value)
    value = {at: made[0][1] for at, made in stores.items() if at in places and len(made) == 1 and made[0][0] == "start" and lasting(made[0][1])}
    gone = passing | set(value)
    for label, block in function.blocks.items():
        function.blocks[label] = []
        for i in block:
            i.rename(names)
            if i.form == "store" and i.at in gone:
                value[i.at] = i.value
            elif i.form == "load" and i.at in gone:
                names[i.result] = value[i.at]
            elif i.result not in names:
                function.blocks[label].append(i)


def drop_unused(function):
    """Values that nothing uses any more; a call stays."""
    while True:
        function.count_uses()
        unused = {i.result for i in function.instructions() if i.result and i.form != "call" and not function.uses[i.result]}
        if not unused:
            break
        for block in function.blocks.values():
            block[:] = [i for i in block if i.result not in unused]
    function.places = {name: place for name, place in function.places.items() if function.uses[name]}


def find_addresses(function):
    """function.base: addresses inside a place, as the place and a number of bytes. function.slices: the places that hold a slice."""
    base = function.base = {name: (name, 0) for name in function.places}
    for i in function.instructions():
        if i.form == "step" and i.at in base and not is_name(i.by):
            base[i.result] = (base[i.at][0], base[i.at][1] + int(i.by))
    function.slices = set()
    for i in function.instructions():
        if i.form in ("load", "store") and i.type == "ptr" and i.at in base:
            place, offset = base[i.at]
            if offset == 0 and function.places[place] == SLICE:
                function.slices.add(place)


def kind(function, name):
    """What a place is in C: a number's type, slice, or bytesSIZE_ALIGN."""
    place = function.places[name]
    return place.type or ("slice" if name in function.slices else f"bytes{place.size}_{place.align}")


# ---------------------------------------------------------------- what is handed over by value


def find_by_value(functions, table):
    """function.copied: the arguments that are copied from memory first thing, by their number, with the place they go to.
    function.ends: the places that are copied to the result's memory last thing. Both are by value, if all calls hand over places like them."""
    for function in functions:
        function.copied = {} if function.export else copied_arguments(function)
        function.ends = [] if function.export else copied_results(function)
    calls = [(f, i, table[i.callee]) for f in functions for i in f.instructions() if i.form == "call"]
    spread_slices(functions, calls)
    for function, call, callee in calls:
        for k, (_, value) in enumerate(call.args):
            mine = kind(function, value) if value in function.places else None
            if k in callee.copied and kind(callee, callee.copied[k]) not in (mine, "slice"):
                del callee.copied[k]
            if k == 0 and any(kind(callee, place) != mine for place in callee.ends):
                callee.ends = []


def is_place(function, value, size):
    return value in function.places and not function.places[value].type and function.places[value].size == int(size)


def copied_arguments(function):
    """Only what is copied before anything else happens: until then its memory is as the caller left it."""
    found, number = {}, {name: k for k, (_, name) in enumerate(function.args)}
    for i in function.blocks["start"]:
        if i.form != "move" or not is_place(function, i.to, i.size):
            break
        if i.source in number and function.uses[i.source] == 1:
            found[number[i.source]] = i.to
    return found


def copied_results(function):
    """The places that are copied to the first argument's memory right before each return, if that is all that is done with it."""
    ends = [block[-2] for block in function.blocks.values() if len(block) > 1 and block[-1].form == "return"
            and block[-2].form == "move" and block[-2].to == function.args[0][1]] if function.args and not function.type else []
    if ends and function.uses[ends[0].to] == len(ends) and all(is_place(function, i.source, i.size) for i in ends):
        return [i.source for i in ends]
    return []


def spread_slices(functions, calls):
    """A place that is handed over to a slice, or for the result that is one, is a slice itself."""
    before = None
    while before != (now := sum(len(function.slices) for function in functions)):
        before = now
        for function, call, callee in calls:
            for k, (_, value) in enumerate(call.args):
                places = [callee.copied[k]] if k in callee.copied else callee.ends if k == 0 else []
                if function.places.get(value) == SLICE and any(place in callee.slices for place in places):
                    function.slices.add(value)


# ---------------------------------------------------------------- slices that are values


def find_pairs(function, table):
    """A slice that is made in a block, its address first, and then only handed over by value there is a value itself: a pair."""
    pairs = paired(function, table)
    number = 0
    for label, block in function.blocks.items():
        address, names, function.blocks[label] = {}, {}, []
        for i in block:
            place = function.base.get(i.at if i.form == "store" else i.result if i.form == "step" else None, (None,))[0]
            if place not in pairs:
                i.rename(names)
                function.blocks[label].append(i)
            elif i.form == "store" and i.type == "ptr":
                address[place] = i.value
            elif i.form == "store":
                number += 1
                names[place] = f"{place}.{number}"
                function.blocks[label].append(Instruction("pair", result=names[place], at=address[place], length=i.value))
    function.slices -= pairs
    function.places = {name: place for name, place in function.places.items() if name not in pairs}
    function.base = {value: base for value, base in function.base.items() if base[0] not in pairs}
    function.count_uses()


def paired(function, table):
    pairs = function.slices - set(function.copied.values())
    for block in function.blocks.values():
        parts = Counter()  # how many of a slice's two parts are written, in their order
        for i in block:
            place, offset = function.base.get(i.at, (None, 0)) if i.form == "store" else (None, 0)
            if place:
                parts[place] = 1 if (offset, i.type) == (0, "ptr") else 2 if parts[place] == 1 and (offset, i.type) == (8, "i64") else -9
            for value in i.operands():
                place = function.base.get(value, (None, 0))[0]
                given = i.form == "call" and value in function.places and parts[place] == 2 and all(
                    k in table[i.callee].copied for k, (_, other) in enumerate(i.args) if other == value)
                if not (given or i.form == "step" or i.form == "store" and value == i.at and value != i.value):
                    pairs.discard(place)
    return pairs
