"""Words for what a history has: modes, catalogs, scans, and counts of things."""

MODE_NAMES = {
    "as": "AccessShare", "rs": "RowShare", "rx": "RowExclusive", "su": "ShareUpdateExclusive",
    "sh": "Share", "sr": "ShareRowExclusive", "ex": "Exclusive", "ax": "AccessExclusive",
}
CATALOGS = {
    "class": "pg_class", "att": "pg_attribute", "def": "pg_attrdef", "ind": "pg_index", "con": "pg_constraint",
    "trg": "pg_trigger",
}
SCANNED = {
    "reloid": "pg_class for the oid %(rel)d, for its name",
    "attname": "pg_attribute for the column %(name)s of %(called)s",
    "attlist": "pg_attribute for all columns of %(called)s by name",
    "class": "pg_class for %(called)s",
    "attribute": "pg_attribute for the columns of %(called)s",
    "attrdef": "pg_attrdef for the defaults of %(called)s",
    "constraint": "pg_constraint for %(called)s",
    "index": "pg_index for the indexes of %(called)s",
    "trigger": "pg_trigger for the triggers of %(called)s",
    "indexrow": "pg_index for the index %(called)s",
}


def counted(count, word):
    """`1 row`, `2 rows`, `2 entries`."""
    many = word[:-1] + "ies" if word.endswith("y") else word + "s"
    return "%d %s" % (count, word if count == 1 else many)


def about(number):
    """A number that is guessed, with two digits that count."""
    size = 10 ** max(0, len("%d" % number) - 2)
    return "%d" % (round(number / size) * size)


def estimate(guess, done):
    """About how many orders there are at least, where so many are done and not all: a guess below that is none, and as more are
    seen of the tree it grows."""
    is_more = guess is not None and int(about(guess)) > done
    return "at least %s orders by an estimate" % about(guess) if is_more else "more than %s" % counted(done, "order")


def listed(words, most=6):
    """`a`, `a and b`, `a, b and c`; of more than so many the first ones, and how many more there are."""
    words = list(words)
    if len(words) > most:
        words = words[:most - 1] + ["%d more" % (len(words) - most + 1)]
    return " and ".join([", ".join(words[:-1]), words[-1]] if len(words) > 1 else words)
