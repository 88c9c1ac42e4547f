#!/usr/bin/env python3
"""Compares the answers of `nts` with what a plain search finds, on random programs.

The search goes from below: of all closed types of a small universe it finds the goals that have a proof by the impls and
assumptions of a program, so far as the proof names no other types. A goal that it finds a proof of must not be answered `no`, and
where the answer is `yes` with values, each proof that it finds must be of an instance of them. It finds no proofs that need other
types, so it never says that an answer of `yes` is wrong: it counts those that it can confirm.

About half of the programs have aliases, in conditions, also in each other and of what is bound, in assumptions and goals, and in
coherence in heads. For the search an alias of a type is a variable, with the condition that the alias is that: its `norm` lines and
what is assumed of it are impls of a trait of two types. An alias is said to be another one only if that was declared before, and
only in coherence an alias stands in the conditions of a `norm` line: outside of it an alias that comes back to one of its form is
refused, whatever else it may be (docs/TEXT.md).

    examples/against.py [--programs N] [--seed N] [--show]

PROGRAM is the proved `nts`, that of this folder's crate where none is given (the gate leaves it).
"""
import argparse
import itertools
import os
import random
import re
import subprocess
import sys

HERE = os.path.dirname(os.path.abspath(__file__))
PROGRAM = os.environ.get("PROGRAM", os.path.join(HERE, "..", "crates", "nts", "out", "nts"))

# A type is a tuple: its constructor, and its arguments. A variable is a string that begins with `?`. What a binder binds is `Z`, and
# in its place stands a type of which nothing is known, and which no other type of the goal names.
BOUND = ("Z",)
UNKNOWN = [("Z1",), ("Z2",)]
LEAVES = [("A",), ("B",), ("!Q",), *UNKNOWN]
SMALL = LEAVES[:2] + [("W", leaf) for leaf in LEAVES[:2]]
UNIVERSE = (
    LEAVES
    + [("W", leaf) for leaf in LEAVES]
    + [("P", a, b) for a in LEAVES[:2] for b in LEAVES[:2]]
    + [("W", ("W", leaf)) for leaf in LEAVES[:2]]
)
KNOWN = set(UNIVERSE)
VARIABLES = ["?X", "?Y", "?Z"]
ALIAS = "Al"


def text_of(term):
    if isinstance(term, str):
        return term
    head, *arguments = term
    return f"{head}({', '.join(map(text_of, arguments))})" if arguments else head


def goal_text(goal):
    trait, *arguments = goal
    binder = "for<Z> " if any(names(argument, BOUND) for argument in arguments) else ""
    return f"{binder}{trait}({', '.join(map(text_of, arguments))})"


def is_alias(name):
    return name.startswith(ALIAS)


def item_text(item):
    """What an environment says: a goal, or what an alias is."""
    if is_alias(item[0]):
        *of, value = item
        return f"{text_of(tuple(of))} = {text_of(value)}"
    return goal_text(item)


def without_aliases(goal, number=0):
    """The goal with variables in place of its aliases, and before it the conditions that these are what the aliases are. The
    variables have that number in their names, and so are others than those of other numbers."""
    conditions = []

    def put(term):
        if isinstance(term, str):
            return term
        term = (term[0], *map(put, term[1:]))
        if not is_alias(term[0]):
            return term
        conditions.append((*term, f"?{term[0]}_{number}_{len(conditions)}"))
        return conditions[-1][-1]

    goal = (goal[0], *map(put, goal[1:]))
    return [*conditions, goal]


def aliases_in(terms):
    """How many aliases stand in terms."""
    return sum(is_alias(term[0]) + aliases_in(term[1:]) for term in terms if not isinstance(term, str))


def names(term, leaf):
    """Whether a leaf stands in a term."""
    return term == leaf or not isinstance(term, str) and any(names(argument, leaf) for argument in term[1:])


def opened(goal, values):
    """The goal with a type of which nothing is known in place of what it binds, if these values leave one."""
    for unknown in UNKNOWN:
        if not any(names(value, unknown) for value in values):
            return (goal[0], *(in_place(argument, unknown) for argument in goal[1:]))
    return None


def in_place(term, value):
    """The term with a value in place of what is bound."""
    if term == BOUND:
        return value
    return term if isinstance(term, str) else (term[0], *(in_place(argument, value) for argument in term[1:]))


def filled(term, values):
    if isinstance(term, str):
        return values[term]
    return (term[0], *(filled(argument, values) for argument in term[1:]))


def variables_in(terms):
    found = []
    for term in terms:
        for name in [term] if isinstance(term, str) else variables_in(term[1:]):
            if name not in found:
                found.append(name)
    return found


class Program:
    """A random program: traits, impls, assumptions, and goals."""

    def __init__(self, rng, number):
        self.rng = rng
        self.names = [f"T{number}_{i}" for i in range(rng.randint(2, 4))]
        self.arity = {name: rng.choice([1, 1, 2]) for name in self.names}
        self.coinductive = {name for name in self.names if rng.random() < 0.25}
        self.aliases = [f"{ALIAS}{number}_{i}" for i in range(rng.choice([0, 0, 1, 2]))]
        self.mode = rng.choice(["coherence", "analysis", "postanalysis"])
        self.impls = [self.impl() for _ in range(rng.randint(2, 7))]
        self.norms = [self.norm(i) for i in range(len(self.aliases)) for _ in range(rng.randint(1, 3))]
        self.env = [self.closed() for _ in range(rng.choice([0, 0, 1, 2]))]
        self.env += [self.assumed(name) for name in self.aliases if rng.random() < 0.3]
        self.goals = [self.with_alias(self.goal(), 0.3) for _ in range(6)]

    def term(self, names, depth):
        if names and self.rng.random() < 0.5:
            return self.rng.choice(names)
        head = self.rng.choice(["A", "B", "W", "P"] if depth else ["A", "B"])
        count = {"W": 1, "P": 2}.get(head, 0)
        return (head, *(self.term(names, depth - 1) for _ in range(count)))

    def predicate(self, names, depth):
        trait = self.rng.choice(self.names)
        return (trait, *(self.term(names, depth) for _ in range(self.arity[trait])))

    def bound(self, goal, of):
        """Now and then the goal with a bound type as an argument."""
        if self.rng.random() < of:
            at = self.rng.randrange(1, len(goal))
            goal = (*goal[:at], self.rng.choice([BOUND, BOUND, ("W", BOUND)]), *goal[at + 1:])
        return goal

    def with_alias(self, goal, of):
        """Now and then a goal that binds nothing with an alias of an argument in its place, or in a type in its place."""
        if self.aliases and self.rng.random() < of and not any(names(argument, BOUND) for argument in goal[1:]):
            goal = self.aliased(goal)
        return goal

    def aliased(self, goal):
        """The goal with an alias of an argument in its place, or in a type in its place."""
        at = self.rng.randrange(1, len(goal))
        alias = (self.rng.choice(self.aliases), goal[at])
        return (*goal[:at], self.rng.choice([alias, alias, ("W", alias)]), *goal[at + 1:])

    def aliased_conditions(self, head):
        """Conditions with aliases, at most three with the variables, since the search tries all values of each."""
        body = self.conditions(head)
        terms = [term for goal in [head, *body] for term in goal[1:]]
        for _ in range(3 - len(variables_in(terms)) - aliases_in(terms)):
            if body and self.aliases and self.rng.random() < 0.5:
                at = self.rng.randrange(len(body))
                body[at] = self.aliased(body[at])
        return body

    def conditions(self, head):
        bound = variables_in(head[1:])
        others = VARIABLES[2:] if self.rng.random() < 0.3 else []
        return [self.bound(self.predicate(bound + others, 1), 0.15) for _ in range(self.rng.choice([0, 0, 1, 1, 2]))]

    def impl(self):
        """In coherence an alias may stand in the head."""
        head = self.predicate(VARIABLES[:2], 2)
        if self.mode == "coherence":
            head = self.with_alias(head, 0.2)
        return head, self.aliased_conditions(head)

    def norm(self, at):
        """What an alias of a type is: a type, or now and then an alias before it of one."""
        head = (self.aliases[at], self.term(VARIABLES[:1], 1))
        value = self.term(VARIABLES[:2] if self.rng.random() < 0.3 else variables_in(head[1:]), 1)
        if at > 0 and self.rng.random() < 0.3:
            value = (self.rng.choice(self.aliases[:at]), value)
        head = (*head, value)
        return head, self.aliased_conditions(head) if self.mode == "coherence" else self.conditions(head)

    def assumed(self, name):
        """What an alias of a closed type is assumed to be."""
        return (name, self.rng.choice(SMALL + [("!Q",)]), self.rng.choice(SMALL + [("!Q",)]))

    def closed(self):
        trait = self.rng.choice(self.names)
        goal = (trait, *(self.rng.choice(SMALL + [("!Q",)]) for _ in range(self.arity[trait])))
        return self.with_alias(self.bound(goal, 0.2), 0.1)

    def goal(self):
        trait = self.rng.choice(self.names)
        asked = [term for term in UNIVERSE if not any(names(term, unknown) for unknown in UNKNOWN)]
        arguments = [self.rng.choice(["?x", "?y", *asked]) for _ in range(self.arity[trait])]
        if self.rng.random() < 0.2:
            arguments[0] = ("W", self.rng.choice(["?x", "?y"]))
        return self.bound((trait, *arguments), 0.2)

    def lines(self):
        for name in self.names:
            sorts = ", ".join(["type"] * self.arity[name])
            yield f"trait {name}({sorts})" + (" coinductive" if name in self.coinductive else "")
        for name in self.aliases:
            yield f"alias {name}(type)"
        for head, body in [*self.impls, *self.norms]:
            conditions = " <- " + ", ".join(map(goal_text, body)) if body else ""
            yield f"{'norm' if is_alias(head[0]) else 'impl'} {item_text(head)}{conditions}"
        yield f"mode {self.mode}"
        yield " ".join(["env", ", ".join(map(item_text, self.env))]).rstrip()
        for goal in self.goals:
            yield f"goal {goal_text(goal)}"

    def steps(self):
        """Each goal of the universe with the goals from which it follows: what the aliases of the rule's head are, and its conditions."""
        rules = [*self.impls, *self.norms]
        for goal in self.env:
            if without_aliases(goal) != [goal]:
                rules.append((goal, []))
                continue
            for value in UNIVERSE:
                yield (goal[0], *(in_place(term, value) for term in goal[1:])), (), ()
        for head, body in rules:
            *related, head = without_aliases(head)
            body = [*related, *(part for number, goal in enumerate(body, 1) for part in without_aliases(goal, number))]
            told_of = variables_in([*head[1:], *(term for goal in body for term in goal[1:])])
            for values in itertools.product(UNIVERSE, repeat=len(told_of)):
                told = dict(zip(told_of, values))
                goals = [(goal[0], *(filled(term, told) for term in goal[1:])) for goal in [head, *body]]
                goals = [opened(goal, values) for goal in goals]
                if all(goal and all(term in KNOWN for term in goal[1:]) for goal in goals):
                    at = 1 + len(related)
                    yield goals[0], tuple(goals[1:at]), tuple(goals[at:])

    def proved(self):
        """The goals that have a proof: a step from a goal of a coinductive trait to a condition may lead back, and any other leads on."""
        steps = list(self.steps())
        held = {goal for goal, _, _ in steps}
        while True:
            reached, more = set(), True
            while more:
                more = False
                for goal, related, body in steps:
                    if goal not in reached:
                        base = held if goal[0] in self.coinductive else reached
                        if all(part in reached for part in related) and all(part in base for part in body):
                            reached.add(goal)
                            more = True
            if reached == held:
                return held
            held = reached


def matches(pattern, term, values):
    """Whether the term is an instance of the pattern."""
    if isinstance(pattern, str):
        return values.setdefault(pattern, term) == term
    return (
        pattern[0] == term[0]
        and len(pattern) == len(term)
        and all(matches(p, t, values) for p, t in zip(pattern[1:], term[1:]))
    )


def is_proof(goal, proved):
    """Whether what is proved is the goal with values, none of which names what the goal binds."""
    values = {}
    return matches(goal, proved, values) and not any(names(value, UNKNOWN[0]) for value in values.values())


def solutions(goals, proved, values):
    """The values with which all these goals are proved."""
    if not goals:
        yield values
        return
    for it in proved:
        more = dict(values)
        if matches(goals[0], it, more):
            yield from solutions(goals[1:], proved, more)


def proofs_of(goal, proved):
    """The instances of the goal that have a proof. Those of a goal with aliases are written with what the aliases are."""
    *conditions, plain = without_aliases(goal)
    if not conditions:
        return [it for it in proved if is_proof(opened(goal, ()), it)]
    found = solutions([plain, *conditions], proved, {})
    return [filled_goal(goal, values) for values in found if not any(names(value, UNKNOWN[0]) for value in values.values())]


def filled_goal(goal, values):
    """The goal with values for its variables, and its aliases as they are written."""
    return (goal[0], *(filled(argument, values) for argument in goal[1:]))


def read_term(text):
    """A type from its text."""
    tokens = re.findall(r"[?!]?\w+|[(),]", text)

    def term(at):
        name = tokens[at]
        if name.startswith("?"):
            return name, at + 1
        if at + 1 == len(tokens) or tokens[at + 1] != "(":
            return (name,), at + 1
        arguments, at = [], at + 1
        while tokens[at] != ")":
            argument, at = term(at + 1)
            arguments.append(argument)
        return (name, *arguments), at + 1

    return term(0)[0]


def with_values(goal, told):
    values = {name: read_term(text) for name, text in told.items()}

    def put(term):
        if isinstance(term, str):
            return values.get(term, term)
        return (term[0], *map(put, term[1:]))

    return (goal[0], *map(put, goal[1:]))


def answers_of(output):
    """The answers: the words, and the values of the variables."""
    found = []
    for line in output.splitlines():
        if line.startswith("  "):
            name, _, value = line.strip().partition(" = ")
            found[-1][1][name] = value
        else:
            found.append((line, {}))
    return found


def fault_of(goal, answer, told, proofs):
    if answer == "no" and proofs:
        return f"no, but {goal_text(proofs[0])} has a proof"
    if answer == "yes":
        pattern = opened(with_values(goal, told), ())
        lost = [proof for proof in proofs if not matches(pattern, proof, {})]
        if lost:
            return f"yes for {goal_text(pattern)}, but {goal_text(lost[0])} has a proof"
    return None


def main():
    parser = argparse.ArgumentParser(description=__doc__.split("\n")[0])
    parser.add_argument("--programs", type=int, default=300)
    parser.add_argument("--seed", type=int, default=1)
    parser.add_argument("--show", action="store_true", help="print the text that is asked")
    given = parser.parse_args()
    rng = random.Random(given.seed)
    programs = [Program(rng, i) for i in range(given.programs)]
    # Two impls of which both may hold are both tried to their end, so the depth is small.
    types = ["type A", "type B", "type W(type)", "type P(type, type)", "depth 8"]
    lines = [*types, *(line for it in programs for line in it.lines())]
    text = "".join(f"{line}\n" for line in lines)
    if given.show:
        print(text, end="")
        return
    run = subprocess.run([PROGRAM], input=text.encode(), stdout=subprocess.PIPE, timeout=600)
    answers = answers_of(run.stdout.decode())
    asked = [(program, goal) for program in programs for goal in program.goals]
    if run.returncode or len(answers) != len(asked):
        sys.exit(f"against: the run ended with status {run.returncode} and {len(answers)} of {len(asked)} answers: {answers[-1:]}")
    counts, confirmed, wrong, of_program = {}, 0, 0, {}
    for (program, goal), (answer, told) in zip(asked, answers):
        if program not in of_program:
            of_program = {program: program.proved()}
        proofs = proofs_of(goal, of_program[program])
        counts[answer] = counts.get(answer, 0) + 1
        confirmed += answer == "yes" and bool(proofs)
        fault = fault_of(goal, answer, told, proofs)
        if fault:
            wrong += 1
            print("\n    ".join([f"{goal_text(goal)}: {fault}", *program.lines()]))
    said = ", ".join(f"{count} {answer}" for answer, count in sorted(counts.items()))
    print(f"against: {said}; {confirmed} of the yes confirmed; {wrong} wrong")
    sys.exit(1 if wrong else 0)


if __name__ == "__main__":
    main()
