"""Prints the cases of the conformance set, with nothing yet in place of the expected lines.

    python3 cases.py | python3 second.py fill > ../crates/conform/stdin

First come the examples of the pages (the file `worked`, where the expected lines stand as worked by hand), then the
cases written by hand (the file `inputs`), and then the systematic ones that are made here.
"""

import itertools
import os
import sys

import second

HERE = os.path.dirname(os.path.abspath(__file__))


def file(name):
    with open(os.path.join(HERE, name), "rb") as opened:
        return opened.read()


def worked():
    return [(case.head, case.text) for case in second.cases_of(file("worked"))]


def by_hand():
    """The cases of `inputs`: a first line and a text, with lines of remarks and empty lines between the cases."""
    data, at, cases = file("inputs"), 0, []
    while at < len(data):
        head, at = second.part(data, at, b"\n")
        if not head or head.startswith(b"#"):
            continue
        text, at = second.part(data, at, b"@")
        cases.append((head, text))
        at += 1
    return cases


def read(text):
    return b"read", text if isinstance(text, bytes) else text.encode("ascii")


# ---------------------------------------------------------------------------------------------------------------
# Signs
# ---------------------------------------------------------------------------------------------------------------


def bytes_not_permitted():
    """Bytes that may stand nowhere, one to a case. The byte `@` ends the text of a case and can be in none."""
    some = b'\x00\t\r\x0b\x1f!"#$%&\'*.?A[\\]^_`{|}~\x7f\x80\xa0\xff'
    for byte in some:
        yield read(b"field a 0 1 ; mark a %c= 1 ;\n" % byte)
    yield read(b"\xff")
    yield read(b"field a 0 1 ; mark a = 1 ;\xff")
    yield read(b"field a 0 1 ; mark a = 1 ;\r\n")
    yield read(b"Field a 0 1 ; mark a = 1 ;\n")
    yield read(b"field aB 0 1 ; mark a = 1 ;\n")
    yield read("field é 0 1 ; mark a = 1 ;\n".encode("utf-8"))


def token_limits():
    for length in (15, 16, 17, 40):
        word = "w" * (length - 1) + "9"
        yield read(f"field {word} 0 1 ; mark {word} = 1 ;\n")
    for spelling in "0 9 1023 1024 9999 0000 0007 00007 00000 10000 99999999999999999999".split():
        yield read(f"field a 0 1023 ; mark a = {spelling} ;\n")
    for spelling in "1023 1024 01023 0999".split():
        yield read(f"field a 0 {spelling} ; mark a = 1 ;\n")
        yield read(f"field a 0 9 ; mark a + {spelling} = 1 ;\n")
    yield read("field a 0 9 ; mark a = 12345b ;\n")
    yield read("field a 0 9 ; mark a = 1023b ;\n")


def text_limits():
    good = b"field a 0 1 ; mark a = 1 ;"
    yield read(good + b" " * (second.TEXT_LIMIT - len(good)))
    # one byte more; 1 is tested before 2
    yield read(b"?" + b"\n" * (second.TEXT_LIMIT - len(good)) + good)
    # as many joins as a text can hold: refused for the count, at the line's first word
    many = b"field a 0 1;mark a=1" + b"or a=1" * 6000
    text = many[: second.TEXT_LIMIT - 2]
    text = text[: text.rindex(b"or")] + b" ;"
    yield read(text + b" " * (second.TEXT_LIMIT - len(text)))


# ---------------------------------------------------------------------------------------------------------------
# Grammar
# ---------------------------------------------------------------------------------------------------------------

MEDIUM = (
    b"field a 0 3 ; field b 1 2 ; rule r ( p , q ) : p = 1 and q < p + 1 ; "
    b"mark r ( a , 2 ) or 3 : 1 pick b not ( a /= b ) ;"
).split(b" ")

EVERY_TOKEN = b"( ) , ; : + - = /= < <= > >= field rule mark and or not pick a r 2".split(b" ")


def damaged():
    """A medium sheet with each token dropped, doubled, exchanged with the next, or replaced by two others."""
    others = itertools.cycle(EVERY_TOKEN)
    for at in range(len(MEDIUM)):
        before, token, after = MEDIUM[:at], MEDIUM[at], MEDIUM[at + 1 :]
        yield read(b" ".join(before + after))
        yield read(b" ".join(before + [token, token] + after))
        if after:
            yield read(b" ".join(before + [after[0], token] + after[1:]))
        for _ in range(2):
            other = next(others)
            yield read(b" ".join(before + [other] + after))


def cut_short():
    """The same sheet, ended before each token, and with another token behind."""
    others = itertools.cycle(EVERY_TOKEN[::-1])
    for at in range(len(MEDIUM)):
        yield read(b" ".join(MEDIUM[:at]))
        yield read(b" ".join(MEDIUM[:at] + [next(others)]))


def in_levels(openings, inside):
    """A formula inside levels, each opened by `(`, `not` or `pick a`."""
    closing = " )" * openings.count("(")
    return f"field a 0 1 ; mark {' '.join(openings)} {inside}{closing} ;\n"


def levels():
    kinds = ["(", "not", "pick a"]
    for kind in kinds:
        for depth in (16, 17):
            yield read(in_levels([kind] * depth, "a = 1"))
    mixed = [kinds[at % 3] for at in range(17)]
    for turn in range(3):
        yield read(in_levels((mixed[turn:] + mixed[:turn])[:16], "a = 1"))
    for kind in kinds:
        yield read(in_levels((mixed * 2)[:16] + [kind], "a = 1"))
        yield read(in_levels(["("] * 16, f"a = 1 and {kind} a = 1"))
        yield read(in_levels(["not"] * 16, f"a = {kind} a = 1"))
    # what stands behind levels that are closed may open levels again
    sixteen_not = "not " * 16 + "a = 1"
    yield read(f"field a 0 1 ; mark {sixteen_not} and {sixteen_not} and {sixteen_not} ;\n")
    yield read(f"field a 0 1 ; mark {sixteen_not} and not {sixteen_not} ;\n")
    yield read(f"field a 0 1 ; mark ( {sixteen_not} ) ;\n")
    fifteen = in_levels(["("] * 15, "( a = 1 ) and ( a = 1 ) and not a = 1 and pick a a = 1 and a = 1")
    yield read(fifteen)
    # the brackets of a call open no level, and joins at the 16th level are joins like others
    call = in_levels(["("] * 16, "r ( a , 1 ) and r ( 1 , a ) and a = 1")
    yield read(call.replace("mark", "rule r ( p , q ) : p = q ; mark"))
    yield read(in_levels(["("] * 16, "a = 1 and a = 1 or a = 1"))
    yield read(in_levels(["("] * 16, ""))
    # levels of one line tell nothing for the next
    sixteen = " ( " * 16 + "1 = 1" + " ) " * 16
    yield read(f"field a 0 1 ; rule r ( ) : {sixteen} ; rule s ( ) : {sixteen} ; mark {sixteen} ;\n")
    yield read(f"field a 0 1 ; rule r ( ) : {sixteen} ; rule s ( ) : ( {sixteen} ) ; mark {sixteen} ;\n")


# ---------------------------------------------------------------------------------------------------------------
# Names and counts
# ---------------------------------------------------------------------------------------------------------------


def fields(count):
    return "".join(f"field f{at} 0 1 ; " for at in range(count))


def rules(count):
    return "".join(f"rule r{at} ( ) : 1 = 1 ; " for at in range(count))


def chain(joins, join="and"):
    return f" {join} ".join(["1=1"] * (joins + 1))


def counts():
    for count in (1, 8, 9, 10):
        yield read(f"{fields(count)}mark f0 = 1 ;\n")
    yield read(f"{fields(8)}field f0 1 0 ; mark f0 = 1 ;\n")
    yield read(f"{fields(7)}field f0 1 0 ; field f9 0 1 ; mark f0 = 1 ;\n")
    for count in (16, 17):
        yield read(f"field a 0 1 ; {rules(count)}mark r0 ( ) ;\n")
    yield read(f"field a 0 1 ; {rules(16)}rule r0 ( ) : b = 1 ; mark 1 = 1 ;\n")
    for count in (4, 5):
        names = " , ".join(f"p{at}" for at in range(count))
        yield read(f"field a 0 1 ; rule r ( {names} ) : p0 = 1 ; mark 1 = 1 ;\n")
        yield read(f"field a 0 1 ; rule a ( {names} ) : p0 = 1 ; mark 1 = 1 ;\n")
    for joins in (16, 17):
        for join in ("and", "or"):
            yield read(f"field a 0 1 ; mark {chain(joins, join)} ;\n")
            yield read(f"field a 0 1 ; rule r ( ) : {chain(joins, join)} ; mark r ( ) ;\n")
    lines = (
        # joins of a line are counted over all its levels, and anew for each line
        f"mark ( {chain(7)} ) or ( {chain(7)} ) or 1=1 ;",
        f"mark ( {chain(7)} ) or ( {chain(8)} ) or 1=1 ;",
        f"rule r ( ) : {chain(16)} ; rule s ( ) : {chain(16)} ; mark {chain(16)} ;",
        # a name that nothing has, before and behind the line that passes a limit
        f"rule r ( ) : b = 1 ; mark {chain(17)} ;",
        f"rule r ( ) : {chain(17)} and b = 1 ; mark {chain(17)} ;",
    )
    for line in lines:
        yield read(f"field a 0 1 ; {line}\n")


def formula_counts():
    """256 formulas, and 257: 33 to a line of 16 joins, seven of them, and the rest in the mark line."""
    seven = "".join(f"rule r{at} ( ) : {chain(16)} ;\n" for at in range(7))
    rest = (
        f"mark {chain(12)} ;",
        f"mark not {chain(12)} ;",
        f"mark pick a {chain(12)} ;",
        f"mark ( {chain(12)} ) ;",
        f"mark r0 ( ) and {chain(11)} ;",
        f"mark r0 ( ) and {chain(12)} ;",
        # the line that passes the limit is a rule
        f"rule r7 ( ) : {chain(16)} ;\nmark b = 1 ;",
        f"rule r7 ( ) : {chain(12)} ;\nmark 1 = 1 ;",
    )
    for lines in rest:
        yield read(f"field a 0 1 ;\n{seven}{lines}\n")
    # one line with 15 comparisons, 14 joins and 227 or 228 times not
    for rest in ([15] * 13 + [16] * 2, [15] * 12 + [16] * 3):
        yield read("field a 0 1 ; mark " + " and ".join("not " * nots + "1=1" for nots in rest) + " ;\n")
    # many formulas, all of them calls, and terms that count nothing
    calls = " and ".join(["r(a+1,2,3,a)"] * 17)
    yield read(f"field a 0 1 ; rule r ( p , q , s , t ) : p = q ; mark {calls} ;\n")


FAULTY = {
    "2": "rule NAME ( ) : 1 = 1 ? ;",
    "3 word": "rule NAME ( ) : aaaaaaaaaaaaaaaaa = 1 ;",
    "3 number": "rule NAME ( ) : 1 = 1024 ;",
    "4": "rule NAME ( ) 1 = 1 ;",
    "5": "rule NAME ( ) : " + "(" * 17 + "1=1" + ")" * 17 + " ;",
    "6": "rule NAME ( ) : 1 = 1 and 1 = 1 or 1 = 1 ;",
    "7": "rule a ( ) : 1 = 1 ;",
    "8": "rule NAME ( ) : x = 1 ;",
    "9": "rule NAME ( ) : NAME ( 1 ) ;",
    "10": "rule NAME ( ) : 1 = 1 or 0 : 1 1 = 1 ;",
    "11": "rule NAME ( p1 , p2 , p3 , p4 , p5 ) : 1 = 1 ;",
}


def two_faults():
    """Two faulty lines, each kind before each."""
    for first, second_one in itertools.product(FAULTY.values(), repeat=2):
        lines = first.replace("NAME", "r") + "\n" + second_one.replace("NAME", "s")
        yield read(f"field a 0 3 ;\n{lines}\nmark a = 1 ;\n")


# ---------------------------------------------------------------------------------------------------------------
# Readings and walks
# ---------------------------------------------------------------------------------------------------------------

SIGNS = "= /= < <= > >=".split(" ")


def comparisons():
    """Every sign, straight and under `not`, between a field and a number on either side, two fields, and offsets."""
    sides = [("a", "2"), ("2", "a"), ("a", "b"), ("b", "a + 1"), ("b - 1", "a")]
    for sign, (left, right), turned in itertools.product(SIGNS, sides, ("", "not ")):
        text = f"field a 1 3 ; field b 0 2 ; mark {turned}{left} {sign} {right} ;\n"
        if "a" in (left, right) and "2" in (left, right):
            text = f"field a 1 3 ; mark {turned}{left} {sign} {right} ;\n"
        yield b"walk 255", text.encode("ascii")


def readings():
    """Every sign between a smaller, an equal and a greater number."""
    for sign, number in itertools.product(SIGNS, (1, 2, 3)):
        yield b"check 255 %d" % number, f"field a 1 3 ; mark a {sign} 2 ;\n".encode("ascii")


def joins_in_walks():
    """The joins under both targets, nested in each other."""
    shapes = ["( {0} {2} {1} ) {3} ( {1} {2} {0} )", "{0} {3} ( {1} {2} {0} )", "not ( {0} {2} {1} ) {3} {1}"]
    for shape, inner, outer, turned in itertools.product(shapes, ("and", "or"), ("and", "or"), (False, True)):
        formula = shape.format("a < 1", "b > 0", inner, outer)
        if turned:
            formula = f"not ( {formula} )"
        yield b"walk 255", f"field a 0 2 ; field b 0 1 ; mark {formula} ;\n".encode("ascii")


def full_of_pairs():
    """32 pairs are set and the 33rd is refused; outside and full together is 20."""
    text = b"field a 0 40 ; field b 0 1 ; mark a > 28 and b = 1 ;\n"
    pairs = [f"0 {number}" for number in range(33)]
    yield " ".join(["withheld 255"] + pairs[:32]).encode("ascii"), text
    yield " ".join(["withheld 255"] + pairs).encode("ascii"), text
    yield " ".join(["withheld 255"] + pairs + ["2 0", "0 1024", "1 0"]).encode("ascii"), text
    yield " ".join(["withheld 255"] + ["0 30"] * 33 + ["0 31"]).encode("ascii"), text
    yield " ".join(["withheld 255"] + ["2 0"] * 2 + pairs[1:] + ["2 0", "0 0"]).encode("ascii"), text


def longest():
    """A run with the longest trace: 16 joins in the mark line and in each of 255 calls, and eight fields at the end.

    Every join takes branch 1 but for the last, at p = 0. With a call fewer the run is spent.
    """
    false = "1=2 or " * 15
    text = fields(8) + f"rule r ( p ) : {false}p=0 or r ( p - 1 ) ;\nmark {false}1=2 or r ( CALLS ) ;\n"
    ones = "1 " * (16 * 256 - 1)
    yield f"tape 255 {ones}0 0 1 2 3 4 5 6 7".encode("ascii"), text.replace("CALLS", "254").encode("ascii")
    few = "1 " * (16 * 6 - 1)
    yield f"tape 4 {few}0 0 1 2 3 4 5 6 7".encode("ascii"), text.replace("CALLS", "4").encode("ascii")
    yield f"tape 5 {few}0 0 1 2 3 4 5 6 7".encode("ascii"), text.replace("CALLS", "4").encode("ascii")
    for fuel in (254, 255):
        yield f"check {fuel} 0 0 0 0 0 0 0 0".encode("ascii"), text.replace("CALLS", "254").encode("ascii")


def systematic():
    return itertools.chain(
        bytes_not_permitted(),
        token_limits(),
        damaged(),
        cut_short(),
        levels(),
        counts(),
        formula_counts(),
        two_faults(),
        readings(),
        comparisons(),
        joins_in_walks(),
        full_of_pairs(),
        longest(),
        text_limits(),
    )


def main():
    """No case stands twice."""
    seen = set()
    for case in itertools.chain(worked(), by_hand(), systematic()):
        if case not in seen:
            seen.add(case)
            sys.stdout.buffer.write(second.written(second.Case(*case, b"")))


if __name__ == "__main__":
    main()
