# SPDX-License-Identifier: Apache-2.0
"""A table in chunks: each measured once, the footers kept in a file, and later the chunks alone read that a predicate doesn't rule out."""
import os
import random
import tempfile

from foalmorrow import Answer, Column, DType, Footers, Stat, col

COLUMNS = [Column("day", DType.U16), Column("price", DType.I64, nullable=True), Column("city", DType.UTF8)]


def chunk(day: int) -> dict[str, list]:
    """The rows of one day, as a reader would bring them."""
    rng = random.Random(day)
    prices = [None if rng.random() < 0.1 else 100 * day + rng.randrange(50) for _ in range(1000)]
    return {"day": [day] * 1000, "price": prices, "city": [rng.choice(["Bern", "Bonn", "Brno"]) for _ in range(1000)]}


def main() -> None:
    with tempfile.TemporaryDirectory() as folder:
        path = os.path.join(folder, "table.footers")

        # A writer: the statistics of each chunk, true of it by proof.
        Footers.measure(COLUMNS, (chunk(day) for day in range(30))).save(path)

        # A reader, later: which chunks it has to fetch for a predicate, before it has any row.
        footers = Footers.load(path)
        wanted = (col("price") > 2720) & col("city").like("B%") | (col("day") == 3)
        answers = footers.prune(wanted)
        for zone in answers.kept:
            rows = chunk(zone)
            cells = zip(rows["price"], rows["city"], rows["day"])
            found = sum(price is not None and price > 2720 and city.startswith("B") or day == 3 for price, city, day in cells)
            print(f"chunk {zone}: {found} rows" + (", all of them" if answers[zone] == Answer.WHOLE else ""))
        print(f"{len(answers.skipped)} of {len(answers)} chunks are left unread")

        # Why those were read, and how well the table is sorted for it.
        print(footers.slice(26, 30).explain(wanted))
        print(f"a price may lie in {footers.overlap('price').most} of {len(footers)} chunks at the most")
        print("the greatest price of all:", footers.merged().at(0)["price", Stat.MAX][1])


if __name__ == "__main__":
    main()
