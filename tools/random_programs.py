#!/usr/bin/env python3
"""Make random programs, each with the output that a Debian Scheme gives.

    tools/random_programs.py FOLDER [--count N] [--seed S] [--scheme COMMAND..]

Each is a few definitions and expressions whose values are written: numbers, lists, strings, vectors, closures, loops,
assignments, quasiquotes and continuations that are left by. No value depends on the order of operands, and numbers stay
far from the limits, so that every Scheme gives the same. `tools/run_programs.py FOLDER` then compares.
"""

import argparse
import pathlib
import random
import subprocess


class Maker:
    """Makes expressions of a type: n a number, b a truth, l a list of numbers, s a string."""

    def __init__(self, seed):
        self.random = random.Random(seed)
        self.fresh = 0

    def name(self):
        self.fresh += 1
        return f"v{self.fresh}"

    def pick(self, choices):
        return self.random.choice(choices)

    def known(self, scope, kind):
        return [name for name, its in scope if its == kind]

    def expr(self, kind, depth, scope):
        """An expression of a type, with variables of the scope."""
        names = self.known(scope, kind)
        if depth <= 0 or self.random.random() < 0.1:
            return self.pick(names) if names and self.random.random() < 0.7 else self.constant(kind)
        return self.pick(self.general() + getattr(self, "of_" + kind)())(kind, depth - 1, scope)

    def constant(self, kind):
        number = lambda: str(self.random.randint(-20, 20))
        word = lambda: '"' + "".join(self.pick("abcxyz ") for _ in range(self.random.randint(0, 4))) + '"'
        items = lambda: "'(" + " ".join(number() for _ in range(self.random.randint(0, 4))) + ")"
        return {"n": number, "b": lambda: self.pick(["#t", "#f"]), "l": items, "s": word}[kind]()

    def general(self):
        return [self.conditional, self.bound, self.bound, self.direct, self.escaped, self.sequence, self.cased]

    def conditional(self, kind, depth, scope):
        if self.random.random() < 0.3:
            return f"(cond ({self.expr('b', depth, scope)} {self.expr(kind, depth, scope)}) (else {self.expr(kind, depth, scope)}))"
        return f"(if {self.expr('b', depth, scope)} {self.expr(kind, depth, scope)} {self.expr(kind, depth, scope)})"

    def bound(self, kind, depth, scope):
        word = self.pick(["let", "let*", "letrec"])
        new = [(self.name(), self.pick("nbls")) for _ in range(self.random.randint(1, 3))]
        inner = scope + new
        parts, seen = [], list(scope)
        for name, its in new:
            parts.append(f"({name} {self.expr(its, depth, seen)})")
            if word == "let*":
                seen.append((name, its))
        return f"({word} ({' '.join(parts)}) {self.expr(kind, depth, inner)})"

    def direct(self, kind, depth, scope):
        name, its = self.name(), self.pick("nbls")
        if self.random.random() < 0.5:
            return f"((lambda ({name}) {self.expr(kind, depth, scope + [(name, its)])}) {self.expr(its, depth, scope)})"
        function = self.name()
        body = self.expr(kind, depth, scope + [(name, its)])
        return f"(let (({function} (lambda ({name}) {body}))) ({function} {self.expr(its, depth, scope)}))"

    def escaped(self, kind, depth, scope):
        k = self.name()
        inside = self.expr(kind, depth, scope)
        if self.random.random() < 0.5:
            return f"(call-with-current-continuation (lambda ({k}) {inside}))"
        test = self.expr("b", depth, scope)
        return f"(call-with-current-continuation (lambda ({k}) (if {test} ({k} {inside})) {self.expr(kind, depth, scope)}))"

    def sequence(self, kind, depth, scope):
        name = self.name()
        inner = scope + [(name, kind)]
        return f"(let (({name} {self.expr(kind, depth, scope)})) (set! {name} {self.expr(kind, depth, inner)}) {self.expr(kind, depth, inner)})"

    def cased(self, kind, depth, scope):
        keys = " ".join(str(n) for n in self.random.sample(range(-3, 7), 3))
        return f"(case (modulo {self.expr('n', depth, scope)} 7) (({keys}) {self.expr(kind, depth, scope)}) (else {self.expr(kind, depth, scope)}))"

    def of_n(self):
        two = lambda op: lambda k, d, s: f"({op} {self.expr('n', d, s)} {self.expr('n', d, s)})"
        small = lambda k, d, s: f"(modulo (* {self.expr('n', d, s)} {self.expr('n', d, s)}) 1009)"
        divided = lambda k, d, s: f"({self.pick(['quotient', 'remainder', 'modulo'])} {self.expr('n', d, s)} {self.random.choice([-7, -3, 2, 5, 13])})"
        measured = lambda k, d, s: self.pick([f"(length {self.expr('l', d, s)})", f"(string-length {self.expr('s', d, s)})", f"(apply + {self.expr('l', d, s)})", f"(abs {self.expr('n', d, s)})", f"(vector-length (list->vector {self.expr('l', d, s)}))"])
        return [two("+"), two("-"), two("max"), small, divided, measured, self.loop]

    def loop(self, kind, depth, scope):
        loop, i, total = self.name(), self.name(), self.name()
        inner = scope + [(i, "n"), (total, "n")]
        step = f"(modulo (+ {total} {self.expr('n', depth - 1, inner)}) 1009)"
        if self.random.random() < 0.5:
            return f"(let {loop} (({i} {self.random.randint(0, 6)}) ({total} 0)) (if (= {i} 0) {total} ({loop} (- {i} 1) {step})))"
        return f"(do (({i} {self.random.randint(0, 6)} (- {i} 1)) ({total} 0 {step})) ((= {i} 0) {total}))"

    def of_b(self):
        compared = lambda k, d, s: f"({self.pick(['<', '>', '=', '<=', '>='])} {self.expr('n', d, s)} {self.expr('n', d, s)})"
        same = lambda k, d, s: (lambda its: f"(equal? {self.expr(its, d, s)} {self.expr(its, d, s)})")(self.pick("nbls"))
        logic = lambda k, d, s: f"({self.pick(['and', 'or'])} {self.expr('b', d, s)} {self.expr('b', d, s)} {self.expr('b', d, s)})"
        asked = lambda k, d, s: self.pick([f"(not {self.expr('b', d, s)})", f"(null? {self.expr('l', d, s)})", f"(even? {self.expr('n', d, s)})", f"(pair? {self.expr('l', d, s)})", f"(string=? {self.expr('s', d, s)} {self.expr('s', d, s)})", f"(if (memv {self.expr('n', d, s)} {self.expr('l', d, s)}) #t #f)"])
        return [compared, same, logic, asked, asked]

    def of_l(self):
        built = lambda k, d, s: self.pick([f"(cons {self.expr('n', d, s)} {self.expr('l', d, s)})", f"(list {self.expr('n', d, s)} {self.expr('n', d, s)})", f"(append {self.expr('l', d, s)} {self.expr('l', d, s)})", f"(reverse {self.expr('l', d, s)})", f"`({self.random.randint(0, 9)} ,{self.expr('n', d, s)} ,@{self.expr('l', d, s)})", f"(vector->list (list->vector {self.expr('l', d, s)}))", f"(map char->integer (string->list {self.expr('s', d, s)}))"])
        x = lambda k, d, s: (lambda n: f"(map (lambda ({n}) {self.expr('n', d - 1, s + [(n, 'n')])}) {self.expr('l', d, s)})")(self.name())
        return [built, built, x]

    def of_s(self):
        built = lambda k, d, s: self.pick([f"(string-append {self.expr('s', d, s)} {self.expr('s', d, s)})", f"(number->string {self.expr('n', d, s)})", f"(list->string (reverse (string->list {self.expr('s', d, s)})))", f"(symbol->string (string->symbol {self.expr('s', d, s)}))", f"(string-copy {self.expr('s', d, s)})", f"(let ((t (string-append {self.expr('s', d, s)} \"x\"))) (string-set! t 0 #\\q) t)"])
        return [built]

    def program(self):
        """A whole program."""
        scope, lines = [], []
        for _ in range(self.random.randint(2, 5)):
            name, its = self.name(), self.pick("nbls")
            lines.append(f"(define {name} {self.expr(its, 4, scope)})")
            scope.append((name, its))
        for _ in range(self.random.randint(2, 6)):
            lines.append(f"(write {self.expr(self.pick('nbls'), 5, scope)}) (newline)")
        return "\n".join(lines) + "\n"


def main():
    parser = argparse.ArgumentParser(description=__doc__, formatter_class=argparse.RawDescriptionHelpFormatter)
    parser.add_argument("folder", type=pathlib.Path)
    parser.add_argument("--count", type=int, default=100)
    parser.add_argument("--seed", type=int, default=1)
    parser.add_argument("--scheme", nargs="+", default=["chezscheme", "--script"])
    options = parser.parse_args()
    options.folder.mkdir(parents=True, exist_ok=True)
    for number in range(options.count):
        source = options.folder / f"random_{options.seed}_{number:03}.scm"
        source.write_text(Maker(f"{options.seed}/{number}").program())
        done = subprocess.run([*options.scheme, str(source)], capture_output=True, timeout=60)
        if done.returncode == 0:
            source.with_suffix(".out").write_bytes(done.stdout)
        else:
            print(f"{source}: {done.stderr.decode('latin-1')[:300]}")


if __name__ == "__main__":
    main()
