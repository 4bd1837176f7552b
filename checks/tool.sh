#!/usr/bin/env bash
# SPDX-License-Identifier: Apache-2.0
# Runs the program foalmorrow on the examples and on words and files that it has to refuse, and compares answers and statuses.
# usage: checks/tool.sh [PROGRAM]    by default proves and builds the program of this tree first, if it isn't built yet
set -u
cd "$(dirname "$0")/.." || exit 1
program="${1:-crates/foalmorrow/out/foalmorrow}"
[ "$#" -gt 0 ] || checks/build.py foalmorrow || exit
work="$(mktemp -d)"
trap 'rm -rf "$work"' EXIT
passed=0
failed=0

# Counts a case, by whether a command succeeds.
case_of() {
    local name="$1"
    shift
    if "$@"; then
        passed=$((passed + 1))
    else
        failed=$((failed + 1))
        echo "differs: $name"
    fi
}

# Runs the program with the given words; its answer, its reasons and its status stand in files.
ran() {
    "$program" "$@" > "$work/answer" 2> "$work/reasons"
    echo "$?" > "$work/status"
}

# Whether the status is the first word, and each further one, `answer:TEXT` or `reasons:TEXT`, stands in a line of that file.
ended() {
    local word
    [ "$(cat "$work/status")" = "$1" ] || return 1
    for word in "${@:2}"; do
        grep -qF -- "${word#*:}" "$work/${word%%:*}" || return 1
    done
}

# Whether nothing was answered, or no reason was told.
is_empty() {
    [ ! -s "$work/$1" ]
}

for input in examples/*.txt; do
    ran scan "$input"
    case_of "$input" cmp -s "$work/answer" "${input%.txt}.out"
    cp "$work/status" "$work/plain"
    ran scan < "$input"
    case_of "$input on standard input" cmp -s "$work/answer" "${input%.txt}.out"
    ran scan --explain "$input"
    case_of "$input, explained" cmp -s "$work/answer" "${input%.txt}.out"
    case_of "the status of $input, explained" cmp -s "$work/status" "$work/plain"
    ran scan -e "$input"
    case_of "the explanation of $input" test "$(cat "$work/status")" -ne 0 -o -s "$work/reasons"
done

# Several files, of which one can't be opened and one has a bad line.
printf 'column a i64\npart\nrow x\n' > "$work/bad.txt"
ran scan examples/first-run.txt "$work/bad.txt"
{ echo "examples/first-run.txt:"; cat examples/first-run.out; echo "$work/bad.txt:"; echo "line 3: bad"; } > "$work/wanted"
case_of "two files" cmp -s "$work/answer" "$work/wanted"
case_of "the status of a bad line" ended 2
ran scan examples/first-run.txt "$work/none.txt" examples/first-run.txt
case_of "a file that isn't there" ended 66 "reasons:$work/none.txt"
case_of "a file behind one that isn't there" test "$(grep -c '^rows' "$work/answer")" -eq 2
ran scan "$work"
case_of "a folder" ended 1 "answer:read" "reasons:read"
printf 'column a i64\nwhere col a\n' | "$program" scan > "$work/answer" 2> "$work/reasons"
echo "${PIPESTATUS[1]}" > "$work/status"
case_of "an expression that is no predicate" ended 1 "answer:predicate"
"$program" scan examples/first-run.txt > /dev/full 2> "$work/reasons"
echo "$?" > "$work/status"
case_of "a full disk" ended 1 "reasons:write"

# Parquet files: three row groups, of which the last has no statistics, and a column of lists.
PYTHONPATH=callers/python PYTHONDONTWRITEBYTECODE=1 python3 - "$work/orders.parquet" << 'PYTHON'
import struct, sys
from tests.systems.parquet_writer import I32, Raw, thrift

number = lambda value: value.to_bytes(8, "little", signed=True)
known = lambda least, greatest: Raw(thrift((3, 0), (5, greatest), (6, least), (7, True), (8, True)))

def chunk(kind, name, rows, statistics):
    meta = thrift((1, I32(kind)), (2, [I32(0)]), (3, [name.encode()]), (4, I32(0)), (5, rows), (6, 0), (7, 0), (9, 4), (12, statistics))
    return Raw(thrift((2, 4), (3, Raw(meta))))

def group(rows, numbers, texts):
    told = [numbers and known(*map(number, numbers)), texts and known(*map(str.encode, texts)), None]
    kinds = [(2, "qty"), (6, "name"), (2, "parts")]
    return Raw(thrift((1, [chunk(*kind, rows, it) for kind, it in zip(kinds, told)]), (2, 0), (3, rows)))

def element(kind, repetition, name, converted=None):
    return Raw(thrift((1, I32(kind)), (3, I32(repetition)), (4, name), (6, converted)))

schema = [Raw(thrift((4, b"root"), (5, I32(3)))), element(2, 1, b"qty"), element(6, 1, b"name", I32(0)), element(2, 2, b"parts")]
groups = [group(10, (1, 9), ("anna", "bert")), group(5, (10, 20), ("carl", "dora")), group(1, None, None)]
footer = thrift((1, I32(1)), (2, schema), (3, 16), (4, groups), (7, [Raw(thrift((1, Raw(thrift())))) for _ in range(3)]))
with open(sys.argv[1], "wb") as file:
    file.write(b"PAR1" + footer + struct.pack("<I", len(footer)) + b"PAR1")
PYTHON
orders="$work/orders.parquet"
pruned() {
    printf '%s\n' "$orders: $1 of 16 rows to read, 3 row groups" "${@:2}" > "$work/wanted"
    cmp -s "$work/answer" "$work/wanted" && ended 0
}
ran prune "$orders" "qty > 9"
case_of "row groups by a number" pruned 6 "0 skip 0..10" "1 whole 10..15" "2 read 15..16"
ran prune "$orders" "name LIKE 'd%' OR qty BETWEEN 3 AND 4"
case_of "row groups by a text or a number" pruned 16 "0 read 0..10" "1 read 10..15" "2 read 15..16"
ran prune "$orders" "qty > 9 AND lower(name) = 'dora'"
case_of "a part that isn't read" pruned 6 "0 skip 0..10" "1 read 10..15" "2 read 15..16" "unread: lower(name) = 'dora'"
ran prune --explain "$orders" "qty > 9"
case_of "what is known of row groups" ended 0 "reasons:  qty: min 1 max 9 null_count 0"

# Whether the explanation ends with these lines.
explained() {
    printf '%s\n' "$@" > "$work/wanted"
    tail -n "$#" "$work/reasons" > "$work/last"
    cmp -s "$work/last" "$work/wanted" && ended 0
}
ran prune --explain "$orders" "qty > 9 AND lower(name) = 'dora'"
case_of "a part that isn't read, underlined" explained "qty > 9 AND lower(name) = 'dora'" "            ~~~~~~~~~~~~~~~~~~~~ not read"
case_of "an answer beside a part that is underlined" grep -qxF "unread: lower(name) = 'dora'" "$work/answer"
ran prune --explain "$orders" "f(1) OR g(2)"$'\n\t'"AND qty > h(3,"$'\r\n\t'"4)"
case_of "parts of several lines, underlined" explained "f(1) OR g(2)" "~~~~    ~~~~ not read" $'\tAND qty > h(3,' $'\t    ~~~~~~~~~~ not read' $'\t4)' $'\t~~ not read'
ran prune --explain "$orders" "name = 'é' OR f(1)"
case_of "a part behind a letter that isn't ASCII" explained "name = 'é' OR f(1)" "not read, at byte 15: f(1)"
wide="qty > 9 OR name = '$(printf 'x%.0s' {1..120})' OR f(1)"
ran prune --explain "$orders" "$wide"
case_of "a part on a wide line" explained "$wide" "not read, at byte 144: f(1)"
ran prune --explain "$orders" "qty > 9"
case_of "a condition that is read whole" explained "qty > 9"

ran prune --format json "$orders" "qty > 9"
case_of "an answer in JSON" python3 -c '
import json, sys
answer = json.load(open(sys.argv[1]))
groups = [(it["start"], it["stop"], it["verdict"]) for it in answer["row_groups"]]
sys.exit(groups != [(0, 10, "skip"), (10, 15, "whole"), (15, 16, "read")] or (answer["rows"], answer["rows_to_read"], answer["unread"]) != (16, 6, []))' "$work/answer"
ran prune "$orders" "$work/none.parquet" "$orders" "qty > 9"
case_of "files of which one isn't there" ended 66 "reasons:$work/none.parquet: it can't be opened"
case_of "the files beside one that isn't there" test "$(grep -c "row groups" "$work/answer")" -eq 2
ran prune "$work/bad.txt" "qty > 9"
case_of "a file that is no Parquet file" ended 2 "reasons:NotParquet"
for condition in "qty >" "price > 9 9" "parts > 9" "qty > 'x'"; do
    ran prune "$orders" "$condition"
    case_of "the condition '$condition'" ended 2 "reasons:$orders: "
    case_of "an answer to the condition '$condition'" is_empty answer
done
ran prune "$work" "qty > 9"
case_of "a folder in place of a Parquet file" ended 66
"$program" prune "$orders" "qty > 9" > /dev/full 2> "$work/reasons"
echo "$?" > "$work/status"
case_of "an answer to a full disk" ended 1 "reasons:could not be written"
# One row group, with a column of each logical type.
PYTHONPATH=callers/python PYTHONDONTWRITEBYTECODE=1 python3 - "$work/typed.parquet" << 'PYTHON'
import struct, sys
from tests.systems.parquet_writer import I32, Raw, thrift

naive = Raw(thrift((8, Raw(thrift((1, False), (2, Raw(thrift((3, Raw(thrift()))))))))))
decimals = lambda scale: ((6, I32(5)), (7, I32(scale)), (8, I32(9)))
columns = [
    (1, b"day", ((6, I32(6)),), -1, 11016), (1, b"far", ((6, I32(6)),), -2147483648, 2147483647), (1, b"clock", ((6, I32(7)),), 0, 86399999),
    (1, b"late", ((6, I32(7)),), -1, 86400000), (2, b"at", ((6, I32(10)),), -1, 1500000), (2, b"naive", ((10, naive),), 0, 2**63 - 1),
    (2, b"price", decimals(2), -5, 12345), (2, b"whole", decimals(0), -7, 7), (2, b"qty", (), -7, 7),
    (4, b"short", (), 0.1, 7.5), (5, b"fare", (), -2.5, 1e300), (5, b"zero", (), -0.0, float("inf")),
]
# FLOAT is 4, and DOUBLE 5.
value = lambda kind, number: struct.pack({4: "<f", 5: "<d"}[kind], number) if kind > 2 else number.to_bytes(4 * kind, "little", signed=True)

def chunk(kind, name, _, least, greatest):
    told = Raw(thrift((3, 0), (5, value(kind, greatest)), (6, value(kind, least)), (7, True), (8, True)))
    meta = thrift((1, I32(kind)), (2, [I32(0)]), (3, [name]), (4, I32(0)), (5, 3), (6, 0), (7, 0), (9, 4), (12, told))
    return Raw(thrift((2, 4), (3, Raw(meta))))

schema = [Raw(thrift((4, b"root"), (5, I32(len(columns)))))]
schema += [Raw(thrift((1, I32(kind)), (3, I32(0)), (4, name), *more)) for kind, name, more, _, _ in columns]
group = Raw(thrift((1, [chunk(*it) for it in columns]), (2, 0), (3, 3)))
footer = thrift((1, I32(1)), (2, schema), (3, 3), (4, [group]), (7, [Raw(thrift((1, Raw(thrift())))) for _ in columns]))
with open(sys.argv[1], "wb") as file:
    file.write(b"PAR1" + footer + struct.pack("<I", len(footer)) + b"PAR1")
PYTHON
typed=(
    "answer:  day: min 1969-12-31 max 2000-02-29 null_count 0" "answer:  far: min day -2147483648 max day 2147483647 null_count 0"
    "answer:  clock: min 00:00:00 max 23:59:59.999 null_count 0" "answer:  late: min -1 max 86400000 null_count 0"
    "answer:  at: min 1969-12-31 23:59:59.999999Z max 1970-01-01 00:00:01.5Z null_count 0"
    "answer:  naive: min 1970-01-01 00:00:00 max 2262-04-11 23:47:16.854775807 null_count 0"
    "answer:  price: min -0.05 max 123.45 null_count 0" "answer:  whole: min -7 max 7 null_count 0" "answer:  qty: min -7 max 7 null_count 0"
    "answer:  short: min 0.1 null_count 0" "answer:  fare: min -2.5 null_count 0" "answer:  zero: min 0 null_count 0"
)
ran show "$work/typed.parquet"
case_of "values of logical types that are shown" ended 0 "${typed[@]}"
ran prune --explain "$work/typed.parquet" "price > 123.45 AND day < '2000-03-01'"
case_of "values of logical types that are explained" ended 0 "reasons:  price: min -0.05 max 123.45 null_count 0" "reasons:  day: min 1969-12-31 max 2000-02-29 null_count 0" "answer:0 skip 0..3"
for condition in "fare < -2.5" "fare BETWEEN -4 AND -3" "zero < 0" "short < 0.0625 OR fare IN (-7, -8.5)"; do
    ran prune "$work/typed.parquet" "$condition"
    case_of "floats under $condition" ended 0 "answer:0 skip 0..3"
done
ran prune "$work/typed.parquet" "fare > 3 AND fare > -4"
case_of "a float above a number, of which NaN may be" ended 0 "answer:0 read 0..3" "answer:unread: fare > 3"
ran prune "$work/typed.parquet" "1 = 1 OR day > 5"
case_of "a number beside a date" ended 2 "reasons:$work/typed.parquet: "
ran show "$orders"
case_of "row groups that are shown" ended 0 "answer:1: 5 rows" "answer:  name: min \"carl\" max \"dora\" null_count 0" "answer:left out: parts: it has a list"

# Words of the command line.
ran --version
case_of "the version" ended 0 "answer:foalmorrow $(sed -n 's/^version = "\(.*\)"$/\1/p' pyproject.toml)"
for words in --help help "scan --help" "prune --help" "show --help" -h; do
    # shellcheck disable=SC2086
    ran $words
    case_of "$words" ended 0 answer:sage:
    case_of "$words on standard error" is_empty reasons
done
for words in "" scam --explain "scan --explan x" "scan -x" prune "prune x.parquet" show; do
    # shellcheck disable=SC2086
    ran $words
    case_of "the words '$words'" ended 64 reasons:sage:
    case_of "an answer to the words '$words'" is_empty answer
done
ran prune --format xml "$orders" "qty > 9"
case_of "a form that isn't known" ended 64 "reasons:text, json"
echo "$passed passed, $failed failed"
[ "$failed" -eq 0 ]
