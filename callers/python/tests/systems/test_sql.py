"""Conditions in SQL beside PostgreSQL: what it reads in a text and what it reads in our print of the text, its plan for both and its rows."""
import os
import pathlib
import random
import re
import subprocess
import unittest
from itertools import product

from foalmorrow import brin
from tests.systems.servers import postgres, postgres_folder

SEED = int(os.environ.get("FOALMORROW_SEED", "1"))
TEXTS = 20_000
#: The program that prints conditions as they are read.
PRINTER = os.environ.get("FOALMORROW_SQL_PRINTER", str(pathlib.Path(__file__).resolve().parents[4] / "crates/vortex_bench/out/vortex_bench"))

MAKE = """
CREATE TABLE t (k int, a int, b int, c boolean, d boolean, s text, u text);
INSERT INTO t SELECT row_number() OVER (), a, b, c, d, s, u
  FROM unnest(array[null, -4, 0, 3, 4]) a, unnest(array[null, 3, 5]) b, unnest(array[null, true, false]) c, unnest(array[true, null]) d,
    unnest(array[null, '', 'ab', 'a%', 'b']) s, unnest(array['a_', null]) u;
CREATE TABLE texts (id int, text text, shown text);
CREATE FUNCTION plan_of(condition text) RETURNS text LANGUAGE plpgsql AS $$
DECLARE line text; whole text := '';
BEGIN
  FOR line IN EXECUTE 'EXPLAIN (COSTS OFF) SELECT * FROM t WHERE ' || condition LOOP whole := whole || line || ' '; END LOOP;
  -- Of a truth IS UNKNOWN is IS NULL.
  RETURN replace(whole, ' UNKNOWN', ' NULL');
EXCEPTION WHEN OTHERS THEN RETURN 'refused ' || SQLSTATE;
END $$;
CREATE FUNCTION truths_of(condition text) RETURNS text LANGUAGE plpgsql AS $$
DECLARE whole text;
BEGIN
  EXECUTE 'SELECT md5(string_agg(CASE WHEN it THEN ''t'' WHEN NOT it THEN ''f'' ELSE ''-'' END, '''' ORDER BY k)) FROM (SELECT k, (' || condition || ') it FROM t) x' INTO whole;
  RETURN whole;
EXCEPTION WHEN OTHERS THEN RETURN 'refused ' || SQLSTATE;
END $$;
"""

#: A text that stands in a column of COPY.
COPIED = str.maketrans({"\\": "\\\\", "\t": "\\t", "\n": "\\n", "\r": "\\r"})


class Texts:
    """Random conditions over the table, of which PostgreSQL takes most: few parentheses, so that precedence matters."""

    def __init__(self, seed: int):
        self.rng = random.Random(seed)

    def one(self, *ways: object) -> str:
        way = self.rng.choice(ways)
        return way() if callable(way) else str(way)

    def number(self, depth: int = 2) -> str:
        rng = self.rng
        plain = ["a", "b", '"a"', rng.randrange(-5, 9), "+4", "- -3", "3.5", "-3.5", "2.0", ".5", "NULL", "3", "99999999999", "-99999999999999999999999"]
        if not depth or rng.random() < 0.7:
            return str(rng.choice(plain))
        x, y = self.number(depth - 1), self.number(depth - 1)
        return rng.choice([f"{x} + {y}", f"({x})", f"abs({x})", f"-{x}" if x[0] not in "-+" else x, f"{x}::bigint", f"CASE WHEN c THEN {x} ELSE {y} END",
            f"{x} * {y}", "(SELECT 3)", f"coalesce({x}, {y})", f"({x})", f"{x}- {y}", f"CAST({x} AS numeric(10, 2))", f"({x} + {y})"])

    def string(self, depth: int = 1) -> str:
        rng = self.rng
        if not depth or rng.random() < 0.8:
            return rng.choice(["s", "u", '"s"', "'ab'", "'a%'", "''", "'it''s'", "'a_'", "'%b'", "'a\\%'", "NULL", "'AND'", "'('", "'--'"])
        x, y = self.string(depth - 1), self.string(depth - 1)
        return rng.choice([f"{x} || {y}", f"lower({x})", f"({x})", f"substring({x} from 1 for 2)", f"{x}::varchar(3)"])

    def truth(self) -> str:
        return self.one("c", "d", "TRUE", "FALSE", "NULL", "(c)", "c", "coalesce(c, d)", "EXISTS (SELECT 1)")

    def sign(self) -> str:
        return self.rng.choice(["=", "<>", "!=", "<", "<=", ">", ">="])

    def test(self, depth: int) -> str:
        rng, no = self.rng, self.rng.choice(["", "", "NOT "])
        kind, space = rng.randrange(12), rng.choice(["", " ", "  "])
        x, s = self.number(), self.string()
        if kind < 3:
            return f"{x}{space}{self.sign()}{space or ' '}{self.number()}"
        if kind == 3:
            return f"{s} {self.sign()} {self.string()}"
        if kind == 4:
            return f"{x} {no}BETWEEN {rng.choice(['', '', 'SYMMETRIC ', 'ASYMMETRIC '])}{self.number()} AND {self.number()}"
        if kind == 5:
            return f"{x} {no}IN ({', '.join(self.number(1) for _ in range(rng.randrange(1, 5)))})"
        if kind == 6:
            return f"{s} {no}IN ({', '.join(self.string(0) for _ in range(rng.randrange(1, 4)))})"
        if kind == 7:
            escape = rng.choice(["", "", "", " ESCAPE '!'", " ESCAPE ''", " ESCAPE '\\'"])
            return f"{s} {no}{rng.choice(['LIKE', 'LIKE', 'ILIKE', 'SIMILAR TO'])} {self.string()}{escape}"
        if kind == 8:
            return f"{self.one(self.number, self.string, self.truth)} {rng.choice(['IS NULL', 'IS NOT NULL', 'ISNULL', 'NOTNULL'])}"
        if kind == 9:
            return f"{x} IS {no}DISTINCT FROM {self.number()}"
        if kind == 10:
            return f"{self.truth()} IS {no}{rng.choice(['TRUE', 'FALSE', 'UNKNOWN'])}"
        return self.truth()

    def condition(self, depth: int = 3) -> str:
        kind = self.rng.randrange(10) if depth else 0
        if kind < 3:
            return self.test(depth)
        if kind < 5:
            return f"{self.condition(depth - 1)} AND {self.condition(depth - 1)}"
        if kind < 7:
            return f"{self.condition(depth - 1)} OR {self.condition(depth - 1)}"
        if kind == 7:
            return f"NOT {self.condition(depth - 1)}"
        if kind == 8:
            return f"({self.condition(depth - 1)})"
        word = self.rng.choice(["IS TRUE", "IS NOT TRUE", "IS FALSE", "IS NOT FALSE", "IS UNKNOWN", "IS NOT UNKNOWN", "IS NULL", "= c", "<> (d)", "IS NOT NULL"])
        return self.rng.choice(["({}) {}", "{} {}"]).format(self.condition(depth - 1), word)

    def mutated(self) -> str:
        """Returns a condition with a word left out, doubled or changed about with another."""
        words = self.condition(2).split(" ")
        at, other = self.rng.randrange(len(words)), self.rng.randrange(len(words))
        kind = self.rng.randrange(3)
        if kind == 0:
            del words[at]
        elif kind == 1:
            words.insert(other, words[at])
        else:
            words[at], words[other] = words[other], words[at]
        return " ".join(words)


def shown(texts: list[str]) -> list[str]:
    """Returns each text as it is printed once it is read."""
    lines = "".join(f"{text}\n" for text in ["conditions", *texts])
    *prints, end = subprocess.run([PRINTER], input=lines.encode(), capture_output=True, check=True).stdout.decode().split("\n")
    assert end == "" and len(prints) == len(texts), (end, len(prints), len(texts))
    return prints


#: Operands of each kind as they are printed.
OPERANDS = ['"a"', "NULL", "TRUE", "FALSE", "-3", "4.5", "-0.5", "'it''s'", "X'00ff'"]
SIGNS = ["=", "<>", ">", ">=", "<", "<="]
ESCAPES = ["", " ESCAPE ''", " ESCAPE '!'", " ESCAPE ''''"]


def tests_printed() -> list[str]:
    """Returns the print of each test: each operand at each place, lists of up to two, each escape, and what isn't read."""
    two, three = list(product(OPERANDS, repeat=2)), list(product(OPERANDS, repeat=3))
    return [
        *(f"{x} {sign} {y}" for x, y in two for sign in (*SIGNS, "IS DISTINCT FROM")),
        *(f"{x} BETWEEN {word}{y} AND {z}" for x, y, z in three for word in ("", "SYMMETRIC ")),
        *(f"{x} IS NULL" for x in OPERANDS),
        *(f"{x} IN ({y})" for x, y in two),
        *(f"{x} IN ({y}, {z})" for x, y, z in three),
        *(f"{x} LIKE {y}{escape}" for x, y in two for escape in ESCAPES),
        *OPERANDS[:4],
        "(f(a))",
        "(a + 1 = 2)",
    ]


def bare(text: str) -> str:
    """Returns a print without the parentheses round what isn't read, which belong to it where they stand in the text."""
    return re.sub(r"\(+f\(a\)\)+", "f(a)", text)


def joined_printed(size: int, leaves: list[str]) -> list[list[str]]:
    """Returns the prints of all conditions over these leaves, by how many NOT, IS, AND and OR they have: none, one, and so on."""
    found = [leaves]
    for count in range(1, size + 1):
        one = [text.format(x) for x in found[count - 1] for text in ("NOT ({})", "({}) IS UNKNOWN", "({}) IS TRUE", "({}) IS FALSE")]
        pairs = [(x, y) for before in range(count) for x in found[before] for y in found[count - 1 - before]]
        found.append([*one, *(f"({x}) {word} ({y})" for x, y in pairs for word in ("AND", "OR"))])
    return found


@unittest.skipIf(not os.path.exists(PRINTER), "the program that prints conditions isn't built: checks/build.py vortex_bench")
class Prints(unittest.TestCase):
    """Each condition up to a size is read from its print as itself: no two have the same print, and of each print the same is printed again."""

    def compare(self, texts: list[str]) -> None:
        self.assertEqual(len(set(texts)), len(texts))
        other = [(text, found) for text, found in zip(texts, shown(texts), strict=True) if bare(found) != bare(text)]
        self.assertEqual(other[:5], [], f"{len(other)} conditions are read otherwise")

    def test_each_test(self) -> None:
        self.compare(tests_printed())

    def test_each_condition_of_up_to_three_joints(self) -> None:
        self.compare([text for texts in joined_printed(3, ['"a" = 3', '"c"', "(f(a))"]) for text in texts])


@unittest.skipIf(postgres_folder() is None, "PostgreSQL isn't installed: apt-get install postgresql")
@unittest.skipIf(not os.path.exists(PRINTER), "the program that prints conditions isn't built: checks/build.py vortex_bench")
class Conditions(unittest.TestCase):
    @classmethod
    def setUpClass(cls) -> None:
        cls.folder = cls.enterClassContext(postgres())
        cls.query = staticmethod(brin.psql(cls.folder, user="postgres"))
        cls.query(MAKE)

    def compare(self, texts: list[str]) -> dict[str, int]:
        """Compares what the server makes of each text and of our print of it; returns how many are read and refused by which."""
        prints = shown(texts)
        rows = "".join(f"{place}\t{text.translate(COPIED)}\t{ours.translate(COPIED)}\n" for place, (text, ours) in enumerate(zip(texts, prints)))
        words = ["psql", "-X", "-q", "-v", "ON_ERROR_STOP=1", "-h", self.folder, "-U", "postgres", "-d", "postgres"]
        subprocess.run([*words, "-c", "TRUNCATE texts", "-c", "COPY texts FROM STDIN"], input=rows.encode(), check=True)
        answers = self.query(
            "SELECT id, plan_of(text), CASE WHEN shown LIKE 'refused: %' THEN '' ELSE plan_of(shown) END, truths_of(text),"
            " CASE WHEN shown LIKE 'refused: %' THEN '' ELSE truths_of(shown) END FROM texts ORDER BY id")
        counts = {"read by both": 0, "refused by both": 0, "of other types": 0, "refused here alone": 0}
        wrong = []
        for text, ours, (_, plan, our_plan, truths, our_truths) in zip(texts, prints, answers, strict=True):
            refused = plan is not None and plan.startswith("refused")
            if ours.startswith("refused: "):
                counts["refused by both" if refused else "refused here alone"] += 1
                continue
            counts["of other types" if refused else "read by both"] += 1
            # A number with a point is printed as another one, and an escape that is told is another call in the plan. What isn't read is no
            # SQL perhaps; then the server refuses both.
            if our_truths != truths or ("." not in text and "ESCAPE" not in text and our_plan != plan):
                wrong.append(f"{text!r} is printed as {ours!r}: {plan} and {our_plan}")
        self.assertEqual(wrong[:5], [], f"{len(wrong)} texts are read otherwise")
        return counts

    def test_random_texts_are_read_as_by_the_server(self) -> None:
        texts = Texts(SEED)
        counts = self.compare([texts.condition() for _ in range(TEXTS)])
        print(f"random texts: {counts}", end=" ", flush=True)
        self.assertGreater(counts["read by both"], TEXTS // 2)
        self.assertLess(counts["refused here alone"], TEXTS // 20)

    def test_mutated_texts_are_read_as_by_the_server(self) -> None:
        texts = Texts(SEED + 1)
        counts = self.compare([texts.mutated() for _ in range(TEXTS // 2)])
        print(f"mutated texts: {counts}", end=" ", flush=True)
        self.assertGreater(counts["read by both"], TEXTS // 20)

    def test_texts_of_up_to_four_tokens_are_read_as_by_the_server(self) -> None:
        tokens = ["a", "c", "3", "=", "<>", "AND", "OR", "NOT", "IS", "NULL", "TRUE", "(", ")"]
        texts = [" ".join(words) for length in range(1, 5) for words in product(tokens, repeat=length)]
        counts = self.compare(texts)
        print(f"short texts: {counts}", end=" ", flush=True)
        self.assertGreater(counts["read by both"], 150)
        self.assertLess(counts["refused here alone"], 100)
