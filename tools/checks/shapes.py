"""Shapes of lines that are as long as a line may be, or as deep."""
import string
from dataclasses import dataclass
from functools import lru_cache
from typing import Callable, List

LONGEST = 65536
# The greatest weight of a view's query, and what the rest of a shape may weigh.
WEIGHT = 500
# The deepest expression, and the most open brackets.
DEEPEST = 62
BRACKETS = 250
# What a name may begin with, and go on with, of ASCII.
BEGINNINGS = string.ascii_letters + "_"
CONTINUATIONS = BEGINNINGS + string.digits


@dataclass(frozen=True)
class Shape:
    """A line with parts. `line` gives the line with so many of them."""

    name: str
    line: Callable[[int], str]
    # What each part weighs in the query of a view.
    weight: int = 0
    # How many parts there are at most, where it isn't the length of the line that says so.
    most: int = LONGEST
    # Whether the line may be the query of a view.
    is_query: bool = True
    # Whether it is tried as a statement: it isn't where that would make more rows than there is memory for.
    is_statement: bool = True

    def longest(self, room: int, most: int) -> str:
        """The line with as many parts as there is room for, in bytes, and not more than so many."""
        low, high = 1, min(most, self.most)
        while low < high:
            middle = (low + high + 1) // 2
            if len(self.line(middle).encode()) <= room:
                low = middle
            else:
                high = middle - 1
        return self.line(low)

    def statement(self) -> str:
        return self.longest(LONGEST, self.most)

    def view(self) -> str:
        """A line that makes a view, as heavy as one may be."""
        begin = ":view v "
        most = WEIGHT // self.weight if self.weight else self.most
        return begin + self.longest(LONGEST - len(begin), most)


@lru_cache(maxsize=None)
def short_name(number: int) -> str:
    """The name with this number, of those with one character, then those with two, and so on."""
    length, names = 1, len(BEGINNINGS)
    while number >= names:
        number -= names
        length, names = length + 1, names * len(CONTINUATIONS)
    made = ""
    for _ in range(length - 1):
        number, last = divmod(number, len(CONTINUATIONS))
        made = CONTINUATIONS[last] + made
    return BEGINNINGS[number] + made


def parts(template: str, between: str, count: int) -> str:
    """A template so many times, with `#` as the number of each, or `~` as the name with that number."""
    if "~" in template:
        return between.join(template.replace("~", short_name(it)) for it in range(count))
    return between.join(template.replace("#", str(it)) for it in range(count))


def chain(template: str, between: str, begin: str = "", end: str = "") -> Callable[[int], str]:
    return lambda count: begin + parts(template, between, count) + end


def nested(begin: str, middle: str, end: str) -> Callable[[int], str]:
    return lambda count: begin * count + middle + end * count


# Expressions over a node `a`, which are conditions. Those with `most` are bounded by the depth of an expression.
CONDITIONS: List[Shape] = [
    Shape("comparisons", chain("a.k#", "<", end="<1")),
    Shape("comparisons of one property", chain("a.k", "<=")),
    Shape("equations", chain("a.k#", "=")),
    Shape("inequations of texts", chain("'x'", "<>")),
    Shape("AND", chain("a.k#=1", " AND "), most=DEEPEST),
    Shape("AND, as many as fit", chain("a.k#=1", " AND ")),
    Shape("OR", chain("a.k#=1", " OR "), most=DEEPEST),
    Shape("XOR", chain("a.k#=1", " XOR "), most=DEEPEST),
    Shape("AND of chains", chain("a.a<a.b<a.c<a.d<a.e<a.f<a.g<a.h<a.i<a.j<a.k<a.l<a.m<a.n<a.o#", " AND "), most=DEEPEST),
    Shape("NOT", lambda count: "NOT " * count + "a.k=1", most=DEEPEST),
    Shape("NOT, as many as fit", lambda count: "NOT " * count + "a.k=1"),
    Shape("IN a list of numbers", chain("#", ",", "a.k IN [", "]")),
    Shape("IN a list of texts", chain("'t#'", ",", "a.k IN [", "]")),
    Shape("IN a list of properties", chain("a.k#", ",", "a.k IN [", "]")),
    Shape("IN a list of lists", chain("[a.k#]", ",", "[a.k] IN [", "]")),
    Shape("IS NULL", chain("a.k# IS NULL", " OR "), most=DEEPEST),
    Shape("IS NULL again and again", lambda count: "a.k" + " IS NULL" * count, most=DEEPEST),
    Shape("STARTS WITH", chain("a.k# STARTS WITH 'x'", " AND "), most=DEEPEST),
    Shape("labels", lambda count: "a" + parts(":L#", "", count)),
    Shape("brackets", nested("(", "a.k=1", ")"), most=BRACKETS),
    Shape("brackets, as many as fit", nested("(", "a.k=1", ")")),
    Shape("CASE with many arms", chain("WHEN a.k#=1 THEN true", " ", "CASE ", " ELSE false END")),
    Shape("CASE in CASE", nested("CASE WHEN a.k=1 THEN ", "true", " ELSE false END"), most=DEEPEST),
    Shape("coalesce", chain("a.k#", ",", "coalesce(", ")=1")),
    Shape("coalesce in coalesce", lambda count: "coalesce(a.k," * count + "1" + ")" * count + "=1", most=DEEPEST),
]
# Expressions over a node `a` that are no conditions.
VALUES: List[Shape] = [
    Shape("list of properties", chain("a.k#", ",", "[", "]")),
    Shape("list of lists", chain("[a.k#]", ",", "[", "]")),
    Shape("lists in lists", nested("[", "a.k", "]"), most=DEEPEST),
    Shape("lists in lists, as many as fit", nested("[", "a.k", "]")),
    Shape("sum of properties", chain("a.k#", "+"), most=DEEPEST),
    Shape("sum of texts", chain("'x'", "+"), most=DEEPEST),
    Shape("sum, as many as fit", chain("1", "+")),
    Shape("signs", lambda count: "- " * count + "1", most=DEEPEST),
    Shape("signs, as many as fit", lambda count: "- " * count + "1"),
    Shape("properties of properties", lambda count: "a" + ".k" * count, most=DEEPEST),
    Shape("CASE of a value", chain("WHEN a.k# THEN #", " ", "CASE a.k ", " END")),
    Shape("text", lambda count: "'" + "x" * count + "'"),
    Shape("escapes", lambda count: "'" + "\\u0041" * count + "'"),
    Shape("toString in size", nested("toString(", "a.k", ")"), most=DEEPEST),
]


def places(shape: Shape, forms: List[List[str]]) -> List[Shape]:
    """An expression's shape in the places that the forms are: a name, and the line before and after the expression."""
    made = []
    for name, begin, end in forms:
        line = lambda count, begin=begin, end=end: begin + shape.line(count) + end
        made.append(Shape(f"{shape.name}, {name}", line, shape.weight, shape.most))
    return made


ITEM = ["as an item", "MATCH (a) RETURN ", " AS x"]
FILTER = ["in WHERE", "MATCH (a) WHERE ", " RETURN a"]
OPTIONAL = ["in WHERE of OPTIONAL MATCH", "MATCH (b) OPTIONAL MATCH (a) WHERE ", " RETURN a"]
LINK = ["of a relationship", "MATCH ()-[a]->() WHERE ", " RETURN 1 AS x"]
BELOW = ["in WHERE of WITH", "MATCH (a)-[r:T]->(b) WITH a, r WHERE ", " RETURN r"]
UNITED = ["in WHERE of the first part of UNION", "MATCH (a) WHERE ", " RETURN a UNION MATCH (b:B) RETURN b AS a"]
SECOND = ["in WHERE of the second part of UNION", "MATCH (b:B) RETURN b AS a UNION MATCH (a) WHERE ", " RETURN a"]
# Over two nodes each row counts 2^62 times, which no row of a view may.
AGAIN = " AS c " + "MATCH () WITH a, c " * 62 + "RETURN a, c"
# As many properties as fit, each with the shortest key that is left.
DEEP: List[Shape] = [
    Shape("properties with short keys", chain("a.~", "<", end="<1")),
    Shape("coalesce of short keys", chain("a.~", ",", "coalesce(", ")=1")),
]
# Lines of many clauses, places, items and the like. Those that no view may have are statements alone.
LINES: List[Shape] = [
    Shape("MATCH", chain("MATCH (n#:A)", " ", end=" RETURN 1 AS x"), weight=3),
    Shape("MATCH of one node", chain("MATCH (a:A)", " ", end=" RETURN a"), weight=3),
    Shape("paths", chain("(n#:A)", ", ", "MATCH ", " RETURN 1 AS x"), weight=2),
    Shape("a long path", lambda count: "MATCH ()" + "-->()" * count + " RETURN 1 AS x", weight=2),
    Shape("a long path either way", lambda count: "MATCH ()" + "--()" * count + " RETURN 1 AS x", weight=2),
    Shape("a long path of names", lambda count: "MATCH (a)" + parts("-[r#:T]->(n#)", "", count) + " RETURN a", weight=3),
    Shape("a long path in OPTIONAL MATCH", lambda count: "MATCH (a) OPTIONAL MATCH (a)" + "-->()" * count + " RETURN a", weight=2),
    Shape("a path of lengths", lambda count: "MATCH ()" + "-[*1..2]->()" * count + " RETURN 1 AS x", weight=5),
    Shape("a path of properties", lambda count: "MATCH (a)" + parts("-[{k:a.k#}]->({k:a.k#})", "", count) + " RETURN 1 AS x", weight=4),
    Shape("labels of a place", lambda count: "MATCH (a" + parts(":L#", "", count) + ") RETURN a", weight=1),
    Shape("types of a place", chain("T#", "|", "MATCH ()-[r:", "]->() RETURN r"), weight=1),
    Shape("types of a length", chain("T#", "|", "MATCH ()-[r:", "*1..3]->() RETURN 1 AS x"), weight=1),
    Shape("entries of a map", chain("k#:1", ",", "MATCH (a {", "}) RETURN a"), weight=1),
    Shape("entries that read", chain("k#:a.k#", ",", "MATCH (a) MATCH (b {", "}) RETURN b"), weight=1),
    Shape("entries of a relationship", chain("k#:a.k#", ",", "MATCH (a) MATCH (a)-[{", "}]->(b) RETURN b"), weight=1),
    Shape("entries of a length", chain("k#:a.k#", ",", "MATCH (a) MATCH (a)-[*1..2 {", "}]->(b) RETURN b"), weight=1),
    Shape("entries in OPTIONAL MATCH", chain("k#:a.k#", ",", "MATCH (a) OPTIONAL MATCH (b {", "}) RETURN b"), weight=1),
    Shape("WITH", chain("WITH a", " ", "MATCH (a) ", " RETURN a"), weight=2),
    Shape("WITH and WHERE", chain("WITH a WHERE a.k#=1", " ", "MATCH (a) ", " RETURN a"), weight=3),
    Shape("WITH and a value", chain("WITH a, a.k# AS k", " ", "MATCH (a) ", " RETURN a, k"), weight=3),
    Shape("WITH DISTINCT", chain("WITH DISTINCT a", " ", "MATCH (a) ", " RETURN a"), weight=2),
    Shape("WITH of a value of before", chain("WITH x AS x", " ", "MATCH (a) WITH a.k AS x ", " RETURN x"), weight=2),
    Shape("MATCH and WITH", chain("MATCH (a)-->(b#) WITH a", " ", "MATCH (a) ", " RETURN a"), weight=6),
    Shape("OPTIONAL MATCH", chain("OPTIONAL MATCH (n#:A)", " ", end=" RETURN 1 AS x"), weight=3),
    Shape("OPTIONAL MATCH of relationships", chain("OPTIONAL MATCH (a)-[r#:T]->()", " ", "MATCH (a) ", " RETURN a"), weight=5),
    Shape("OPTIONAL MATCH and WHERE", chain("OPTIONAL MATCH (a)-->(n#) WHERE n#.k=a.k", " ", "MATCH (a) ", " RETURN a"), weight=6),
    Shape("paths as conditions", chain("(a)-[:T#]->()", " AND ", "MATCH (a) WHERE ", " RETURN a"), weight=5),
    Shape("denied paths", chain("NOT ((a)<-[:T#]-(:L))", " AND ", "MATCH (a) WHERE ", " RETURN a"), weight=6),
    Shape("a long path as a condition", lambda count: "MATCH (a) WHERE (a)" + "-->()" * count + " RETURN a", weight=2),
    Shape("a long path either way as a condition", lambda count: "MATCH (a) WHERE (a)" + "--()" * count + " RETURN a", weight=2),
    Shape("entries of a path as a condition", chain("k#:a.k#", ",", "MATCH (a) WHERE (a)-[{", "}]->() RETURN a"), weight=1),
    Shape("comparisons before a path of a length", chain("a.k#", "<", "MATCH (a) WITH a, ", " AS c WHERE (a)-[*0..3 {k:c}]->() RETURN a")),
    Shape("short keys beside a path", chain("a.~", "<", "MATCH (a) WHERE (a)-->() AND ", "<1 RETURN a")),
    Shape("short keys of a relationship and its ends", chain("a.~<b.~<c.~", "<", "MATCH (a)-[b]->(c) WHERE ", " RETURN a")),
    Shape("short keys of rows that count too often", chain("a.~", "<", "MATCH (a) WITH a, ", AGAIN), is_statement=False),
    Shape("conditions beside a path", chain("a.k#=1", " AND ", "MATCH (a) WHERE (a)-->() AND ", " RETURN a"), most=DEEPEST),
    Shape("UNION", chain("MATCH (a:L#) RETURN a", " UNION "), weight=6),
    Shape("UNION ALL", chain("RETURN # AS x", " UNION ALL "), weight=3),
    Shape("UNION of paths", chain("MATCH (a)-[:T#]->()-->(b) RETURN a, b", " UNION "), weight=11),
    Shape("items", chain("a.k# AS c#", ", ", "MATCH (a) RETURN "), weight=1),
    Shape("items without a property", chain("# AS c#", ", ", "RETURN "), weight=1),
    Shape("items of WITH", chain("a.k# AS c#", ", ", "MATCH (a) WITH ", " RETURN c0"), weight=1),
    Shape("DISTINCT items", chain("a.k# AS c#", ", ", "MATCH (a) RETURN DISTINCT "), weight=1),
    Shape("an item as it is written", lambda count: "MATCH (a) RETURN a.k" + " " * count + "IS NULL"),
    Shape("a quoted name", lambda count: "MATCH (`" + "n" * count + "`) RETURN 1 AS x"),
    Shape("a comment", lambda count: "RETURN 1 AS x //" + "/*" * count),
    Shape("UNWIND", chain("UNWIND [1] AS x#", " ", end=" RETURN 1 AS x")),
    Shape("UNWIND of the value before", chain("UNWIND x AS x#", " ", "WITH [1] AS x ", " RETURN 1 AS y")),
    Shape("UNWIND of a long list", chain("#", ",", "UNWIND [", "] AS x RETURN x")),
    Shape("keys of ORDER BY", chain("a.k#", ", ", "MATCH (a) RETURN a ORDER BY "), is_query=False),
    Shape("aggregates", chain("count(a.k#) AS c#", ", ", "MATCH (a) RETURN "), is_query=False),
    Shape("collect of DISTINCT", chain("collect(DISTINCT a.k#) AS c#", ", ", "MATCH (a) RETURN "), is_query=False),
    Shape("CREATE of a path", lambda count: "CREATE ()" + "-[:T]->()" * count, is_query=False),
    Shape("CREATE of nodes", chain("(n#)", ", ", "CREATE "), is_query=False),
    Shape("CREATE of labels", lambda count: "CREATE (" + parts(":L#", "", count) + ")", is_query=False),
    Shape("CREATE of properties", chain("k#:#", ",", "CREATE ({", "})"), is_query=False),
    Shape("CREATE of a long list", chain("#", ",", "CREATE ({k:[", "]})"), is_query=False),
    Shape("CREATE again and again", chain("CREATE (n#)", " "), is_query=False),
    Shape("SET", chain("a.k#=a.k", ", ", "MATCH (a) SET "), is_query=False),
    Shape("SET of labels", lambda count: "MATCH (a) SET a" + parts(":L#", "", count), is_query=False),
    Shape("REMOVE", chain("a.k#", ", ", "MATCH (a) REMOVE "), is_query=False),
    Shape("DELETE", chain("n#", ", ", "CREATE (n0), (n1), (n2) DETACH DELETE "), most=3, is_query=False),
    Shape("names of DELETE", lambda count: "MATCH (a) DETACH DELETE a" + ", a" * count, is_query=False),
    Shape("a view's name", lambda count: ":rows " + "v" * count, is_query=False),
    Shape("an index", lambda count: ":index L " + "k" * count, is_query=False),
    Shape("signs of what is no statement", lambda count: ")" * count, is_query=False),
]


def all_shapes() -> List[Shape]:
    shapes = [made for it in CONDITIONS for made in places(it, [ITEM, FILTER, OPTIONAL, LINK, BELOW])]
    shapes += [made for it in DEEP for made in places(it, [ITEM, FILTER, OPTIONAL, LINK, BELOW, UNITED, SECOND])]
    shapes += [made for it in VALUES for made in places(it, [ITEM])]
    return shapes + LINES
