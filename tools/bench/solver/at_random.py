#!/usr/bin/env python3
"""Solves a thousand random formulas of 5 to 60 variables with budgets 1, 2, 5, 20 and 100,000, and checks each answer by
the definitions alone: a model satisfies the formula; each lemma of a log follows by its hints; each lemma of a spent log
is new to unit propagation and there are as many as the budget; and the answer is minisat's.

    at_random.py PROGRAM [COUNT]

PROGRAM is the solver's program as run.sh builds it. minisat has to be installed."""
import random
import subprocess
import sys
import tempfile

BUDGETS = (1, 2, 5, 20, 100000)


def formula(source):
    """Clauses of one to four literals, a few with a literal twice or with a variable and its opposite."""
    variables = source.randint(5, 60)
    size = source.choice((2, 3, 3, 3, 4))
    ratio = {2: 1.1, 3: 4.2, 4: 9.5}[size] * source.uniform(0.8, 1.3)
    clauses = []
    for _ in range(max(1, int(variables * ratio))):
        length = max(1, size + source.choice((-1, 0, 0, 0, 0, 0, 0, 0, 0, 1)))
        if source.random() < 0.02:
            length = 1
        pick = source.choices if source.random() < 0.05 else lambda vs, k: source.sample(vs, min(k, len(vs)))
        chosen = pick(range(1, variables + 1), k=length)
        clauses.append([v if source.random() < 0.5 else -v for v in chosen])
    return variables, clauses


def write(path, variables, clauses):
    with open(path, "w") as file:
        file.write(f"p cnf {variables} {len(clauses)}\n")
        for clause in clauses:
            file.write(" ".join(map(str, clause)) + " 0\n")


def follows(clauses, lemma, hints):
    """False literals start as the lemma's; each hint but the last has one distinct literal outside, whose opposite
    joins; the last has none."""
    false = set(lemma)
    if not hints:
        return False
    for place, hint in enumerate(hints):
        if hint >= len(clauses):
            return False
        outside = set(clauses[hint]) - false
        if place == len(hints) - 1:
            return not outside
        if len(outside) != 1:
            return False
        (literal,) = outside
        if -literal in false:
            return False
        false.add(-literal)
    return False


def is_new(clauses, lemma):
    """For some literal of the lemma, propagation from the others being false neither fails nor makes it true."""
    for own in set(lemma):
        false = set(lemma) - {own}
        failed = False
        changed = True
        while changed and not failed:
            changed = False
            for clause in clauses:
                outside = set(clause) - false
                if not outside:
                    failed = True
                    break
                if len(outside) == 1:
                    (literal,) = outside
                    if -literal not in false:
                        false.add(-literal)
                        changed = True
        if not failed and -own not in false:
            return True
    return False


def read(text):
    """The first word, the model's values and the log's lemmas."""
    lines = text.split("\n")
    values, log = [], []
    for line in lines[1:]:
        words = line.split()
        if not words:
            continue
        if words[0] == "v":
            values.append(words[1] == "true")
        elif words[0] == "lemma":
            log.append(([], []))
        elif words[0] == "l":
            log[-1][0].append(-(int(words[1]) + 1) if words[2] == "true" else int(words[1]) + 1)
        elif words[0] == "h":
            log[-1][1].append(int(words[1]))
    return lines[0].split(), values, log


def fault(clauses, variables, budget, text, satisfiable):
    """What is wrong with an answer, if anything."""
    first, values, log = read(text)
    if first[0] == "SAT":
        if not satisfiable:
            return "a model where minisat has none"
        used = max((abs(x) for c in clauses for x in c), default=0)
        if len(values) != used:
            return "a model of another length"
        if not all(any(values[abs(x) - 1] == (x > 0) for x in c) for c in clauses):
            return "a model that does not satisfy"
        return None
    known = list(clauses)
    spent = first[0] == "SPENT"
    for lemma, hints in log:
        if not follows(known, lemma, hints):
            return "a lemma that does not follow"
        if spent:
            if len({abs(x) for x in lemma}) != len(lemma):
                return "a variable twice"
            if not is_new(known, lemma):
                return "a lemma that is not new"
        known.append(lemma)
    if spent:
        return None if len(log) == budget else "not as many lemmas as the budget"
    if satisfiable:
        return "refuted where minisat has a model"
    if log[-1][0] or len(log) > budget + 1:
        return "no empty lemma at the end, or too many"
    return None if "checked=true" in first else "sat_check does not say Yes"


def main():
    program, count = sys.argv[1], int(sys.argv[2]) if len(sys.argv) > 2 else 1000
    counts = {}
    with tempfile.TemporaryDirectory() as folder:
        path = f"{folder}/formula.cnf"
        for seed in range(count):
            variables, clauses = formula(random.Random(seed))
            write(path, variables, clauses)
            status = subprocess.run(["minisat", "-verb=0", path], stdout=subprocess.DEVNULL, stderr=subprocess.DEVNULL)
            for budget in BUDGETS:
                run = subprocess.run([program, path, str(budget), "show"], capture_output=True, text=True, check=True)
                wrong = fault(clauses, variables, budget, run.stdout, status.returncode == 10)
                if wrong:
                    print(f"seed {seed}, budget {budget}: {wrong}")
                    sys.exit(1)
                key = (budget, run.stdout.split()[0])
                counts[key] = counts.get(key, 0) + 1
    for budget in BUDGETS:
        print(budget, {word: n for (b, word), n in sorted(counts.items()) if b == budget})


main()
