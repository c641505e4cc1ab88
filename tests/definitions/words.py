"""The words of the kit's library that definitions use, in Python: numbers are `int`, lists and pairs `tuple`.

A constructor's value is a tuple of its name and its arguments; `true` and `false` are Python's.
"""

NONE = ("None",)


def some(value):
    return ("Some", value)


def minus(a, b):
    """A difference of natural numbers, at least 0."""
    return a - b if a > b else 0


def quotient(a, b):
    """A division by 0 gives 0."""
    return a // b if b else 0


def remainder(a, b):
    """The remainder of a division by 0 is the number."""
    return a % b if b else a


def item_or(items, place, otherwise):
    return items[place] if place < len(items) else otherwise


def with_item(items, place, item):
    """A list with an item replaced; a place past its end changes nothing."""
    return items[:place] + (item,) + items[place + 1 :] if place < len(items) else items


def place_of(test, items):
    return next((some(place) for place, item in enumerate(items) if test(item)), NONE)


def flattened(function, items):
    return tuple(made for item in items for made in function(item))


def unwrapped(option, otherwise):
    return option[1] if option[0] == "Some" else otherwise


# Each word: the number of its arguments, and its Python, with {0}, {1} .. for them.
WORDS = {
    "zero": (0, "0"),
    "[]": (0, "()"),
    "refl": (0, "True"),
    "suc": (1, "({0} + 1)"),
    "◌+◌": (2, "({0} + {1})"),
    "◌-◌": (2, "minus({0}, {1})"),
    "◌*◌": (2, "({0} * {1})"),
    "◌/◌": (2, "quotient({0}, {1})"),
    "◌%◌": (2, "remainder({0}, {1})"),
    "◌^◌": (2, "({0} ** {1})"),
    "◌==◌": (2, "({0} == {1})"),
    "nat_eq": (2, "({0} == {1})"),
    "nat_lt": (2, "({0} < {1})"),
    "nat_le": (2, "({0} <= {1})"),
    "◌&&◌": (2, "({0} and {1})"),
    "◌||◌": (2, "({0} or {1})"),
    "not": (1, "(not {0})"),
    "min": (2, "min({0}, {1})"),
    "max": (2, "max({0}, {1})"),
    "◌∷◌": (2, "({0}, *{1})"),
    "◌++◌": (2, "({0} + {1})"),
    "length": (1, "len({0})"),
    "take": (2, "{1}[:{0}]"),
    "drop": (2, "{1}[{0}:]"),
    "replicate": (2, "(({1},) * {0})"),
    "map": (2, "tuple(map({0}, {1}))"),
    "flat_map": (2, "flattened({0}, {1})"),
    "filter": (2, "tuple(filter({0}, {1}))"),
    "count_by": (2, "sum(map({0}, {1}))"),
    "sum_by": (2, "sum(map({0}, {1}))"),
    "list_any": (2, "any(map({0}, {1}))"),
    "position": (2, "place_of({0}, {1})"),
    "bytes_eq": (2, "({0} == {1})"),
    "slice_index": (2, "item_or({0}, {1}, 0)"),
    "slice_index_or": (3, "item_or({0}, {1}, {2})"),
    "slice_set": (3, "with_item({0}, {1}, {2})"),
    "is_some": (1, '({0}[0] == "Some")'),
    "is_none": (1, '({0}[0] == "None")'),
    "unwrap_or": (2, "unwrapped({0}, {1})"),
    "option_map": (2, "option_map({0}, {1})"),
    "option_or": (2, "option_or({0}, {1})"),
    "decimal": (1, 'tuple(b"%d" % {0})'),
    "codes": (1, "tuple({0}.encode())"),
}


def option_map(function, option):
    return some(function(option[1])) if option[0] == "Some" else NONE


def option_or(option, otherwise):
    return option if option[0] == "Some" else otherwise


# What the texts above name.
SPACE = {
    each.__name__: each
    for each in (minus, quotient, remainder, item_or, with_item, place_of, flattened, unwrapped, option_map, option_or)
}
