"""Prints COUNT random cases without expected lines, in this folder:

    python3 random_cases.py SEED COUNT | python3 second.py fill > CASES

They hold two programs against each other on many more cases than the conformance set has. A case with more than 120
expected lines is left out.
"""

import random
import sys

import second

R = random.Random(int(sys.argv[1]))
SIGNS = "= /= < <= > >=".split()
TOKENS = "( ) , ; : + - = /= < <= > >= field rule mark and or not pick a b r p 0 1 2 1023 1024 0001".split()


def term(names):
    choice = R.random()
    if choice < 0.3:
        return str(R.choice([0, 1, 2, 3, R.randrange(1024)]))
    name = R.choice(names)
    return name if choice < 0.75 else f"{name} {R.choice('+-')} {R.choice([0, 1, 2, 1023])}"


def unit(names, rules, depth):
    choice = R.random()
    if depth == 0 or choice < 0.4:
        return f"{term(names)} {R.choice(SIGNS)} {term(names)}"
    if choice < 0.58 and rules:
        name, count = R.choice(rules)
        return f"{name} ( {' , '.join(term(names) for _ in range(count))} )"
    if choice < 0.72:
        return "not " + unit(names, rules, depth - 1)
    if choice < 0.82:
        return f"pick {R.choice(names)} " + unit(names, rules, depth - 1)
    return f"( {formula(names, rules, depth - 1)} )"


def formula(names, rules, depth):
    text, join = unit(names, rules, depth), R.choice(["and", "or"])
    for _ in range(R.choice([0, 0, 1, 1, 2])):
        weights = f" {R.randrange(1, 5)} : {R.randrange(1, 5)}" if R.random() < 0.4 else ""
        text += f" {join}{weights} " + unit(names, rules, depth)
    return text


def sheet():
    fields = R.sample(["a", "b", "c", "weights", "d4"], R.randrange(1, 4))
    lines = []
    for field in fields:
        low = R.choice([0, 1, 2, R.randrange(1020)])
        lines.append(f"field {field} {low} {min(1023, low + R.randrange(4))} ;")
    rules = []
    for name in ["r", "s", "t"][: R.randrange(4)]:
        parameters = ["p", "q", "u", "v"][: R.randrange(5)]
        rules.append((name, len(parameters)))
        callable_here = rules if R.random() < 0.3 else rules[:-1]
        lines.append(f"rule {name} ( {' , '.join(parameters)} ) : {formula(fields + parameters, callable_here, 2)} ;")
    lines.append(f"mark {formula(fields, rules, 3)} ;")
    return "\n".join(lines) + "\n"


def damaged(text):
    tokens = text.split()
    for _ in range(R.choice([1, 1, 2, 3])):
        at, what = R.randrange(len(tokens)), R.randrange(5)
        if what == 0 and len(tokens) > 1:
            del tokens[at]
        elif what == 1:
            tokens.insert(at, R.choice(TOKENS))
        elif what == 2:
            other = R.randrange(len(tokens))
            tokens[at], tokens[other] = tokens[other], tokens[at]
        elif what == 3:
            tokens[at] = R.choice(tokens)
        else:
            tokens[at] = R.choice(TOKENS)
    data = bytearray(R.choice([" ", "", " ", "\n"]).join(tokens).encode())
    if R.random() < 0.15 and data:
        data[R.randrange(len(data))] = R.choice([b for b in range(256) if b != 0x40])
    return bytes(data)


def case():
    text, kind = sheet().encode(), R.randrange(9)
    count = text.count(b"field ")
    fuel = R.choice([0, 1, 2, 3, 5, 8, 8])
    if kind <= 1:
        return "read", damaged(text.decode())
    if kind == 2:
        bounds = [line.split()[2:4] for line in text.decode().splitlines() if line.startswith("field")]
        mark = [str(R.randint(int(low), int(high) + (R.random() < 0.1))) for low, high in bounds]
        return " ".join(["check", str(fuel)] + mark), text
    if kind <= 4:
        return f"walk {fuel}", text
    if kind == 5:
        numbers = [str(R.choice([0, 1, 2, 3, 4, 1023, 1024])) for _ in range(R.randrange(8 * count))]
        return " ".join(["register", str(fuel)] + numbers), text
    if kind == 6:
        pairs = [f"{R.randrange(count + 1)} {R.choice([0, 1, 2, 3, 1023, 1024])}" for _ in range(R.randrange(5))]
        return " ".join(["withheld", str(fuel)] + pairs), text
    if kind == 7:
        return f"draws {R.randrange(1, 2**64)} {R.randrange(40)} {fuel}", text
    numbers = [str(R.choice([R.randrange(8), R.randrange(2**32)])) for _ in range(R.randrange(20))]
    return " ".join(["tape", str(fuel)] + numbers), text


def small(head, text):
    """Whether the answer has at most 120 lines, found out without making many more."""
    kind, *words = head.split()
    if kind not in ("walk", "register", "withheld"):
        return True
    read, numbers = second.sheet_of(text), [int(word) for word in words]
    store = second.OpenStore(len(read.ranges))
    if kind == "register":
        store = second.RegisterStore(len(read.ranges), numbers[1:])
    if kind == "withheld":
        store, _ = second.withheld_store(len(read.ranges), list(zip(numbers[1::2], numbers[2::2])))
    picks = []
    for _ in range(110):
        run = second.Run(read, store, numbers[0], second.follow(picks))
        run.end()
        picks = second.next_picks(run.trace)
        if picks is None:
            return True
    return False


made = 0
while made < int(sys.argv[2]):
    head, text = case()
    if small(head, text):
        made += 1
        sys.stdout.buffer.write(second.written(second.Case(head.encode(), text, b"")))
