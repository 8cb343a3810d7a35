#!/usr/bin/env bash
# Holds docs/PROMISES.md against the sources. Each public function of each crate has one row there; the definitions that a row names are
# cited by the function's contract and by the theorem beside them; the theorem and the two edits stand in the function's crate, and an edit
# changes code, not a definition, and stands in one row; and no public function has a `requires`. What the documents name stands where they
# say. What must be believed rests on nothing that is inner, and no crate with edits has more than 20 functions. The last line is "N passed,
# M failed"; each failure is a line of its own above it.
set -euo pipefail
cd "$(dirname "$0")/.."

table=docs/PROMISES.md
work=$(mktemp -d)
trap 'rm -rf "$work"' EXIT
passed=0
failed=0

pass() { passed=$((passed + 1)); }
fail() {
    echo "FAILED: $*"
    failed=$((failed + 1))
}

# Each public function as "crate|name|file|line". A method is named Type::method. What is public inside its crate alone is left out.
public_functions() {
    find crates/*/src -name '*.rt' | sort | while read -r file; do
        crate=${file#crates/}
        crate=${crate%%/*}
        awk -v crate="$crate" -v file="$file" '
            /^ *impl[ <]/ { type = $0; sub(/^ *impl(<[^>]*>)? */, "", type); sub(/[^A-Za-z0-9_].*/, "", type); type = type "::" }
            /^}/ { type = "" }
            /(^|[ \]])pub ([a-z]+ |"C" )*fn / {
                name = $0
                sub(/.*pub ([a-z]+ |"C" )*fn /, "", name)
                sub(/[^A-Za-z0-9_].*/, "", name)
                print crate "|" type name "|" file "|" NR
            }' "$file"
    done
}

# The lines of a contract, without the names of its clauses: from the function's line to the one that opens its body, which ends in a brace
# and is no clause.
contract_of() {
    awk -v from="$2" '
        NR < from { next }
        /[{]$/ && !/^ *(ensures|requires|ghost) / { sub(/ *[{]$/, ""); print; exit }
        /^ *(ensures|requires) [a-z_0-9]+ [{]/ { sub(/ [a-z_0-9]+ [{]/, " {") }
        { print }' "$1"
}

# The clauses of a contract that are equations, each on one line.
equations_in() { awk '/^ *ensures / { if (clause) print clause; clause = "" } /^ *ensures / || clause { clause = clause " " $0 } END { if (clause) print clause }' "$1" | grep '≡' || true; }

# Each row of the table as "crate::name|definitions|theorem|edit|edit", the words of a cell parted by spaces.
rows_of_the_table() {
    awk -F'|' '/^\| `[a-z0-9_]+::/ {
        for (i = 2; i <= 7; i++) { gsub(/^ +| +$/, "", $i) }
        gsub(/`/, "", $2); gsub(/[`,]/, "", $4); gsub(/`/, "", $5)
        first = $6; second = $7
        sub(/^[^`]*`/, "", first); sub(/`.*/, "", first)
        sub(/^[^`]*`/, "", second); sub(/`.*/, "", second)
        print $2 "|" $4 "|" $5 "|" first "|" second
    }' "$table"
}

# The statement of a theorem: from its name to the line before its first clause. Laws stand beside the definitions, or in proofs/.
statement_of() {
    find crates/"$1" -maxdepth 2 \( -path '*/specs/*' -o -path '*/proofs/*' \) -name '*Laws.antt' -print0 | sort -z | xargs -0 awk -v name="$2" '
        $0 ~ "^ *pub " name " :" { on = 1 }
        on && ($0 ~ "^ *" name " " || $0 ~ "^ *unfolding ") { exit }
        on'
}

# Whether the first file that an edit changes is code of its crate.
changes_code() { grep -m1 '^file:' "$1" | grep -q '^file: src/'; }

# Whether a file defines or proves a name, for others to use.
defines() { grep -qE "^ *(unfoldable |abbrev )?pub (record |data )?$2( |\$)" "$1" 2>/dev/null; }

# A word that stands in the text on standard input, whole.
has_word() { grep -qE "(^|[^[:alnum:]_'-])$1([^[:alnum:]_'-]|\$)"; }

check_row() {
    local crate=$1 name=$2 file=$3 line=$4 definitions theorem first second
    IFS='|' read -r _ definitions theorem first second < <(grep "^$crate::$name|" "$work/rows")
    contract_of "$file" "$line" >"$work/contract"
    statement_of "$crate" "$theorem" >"$work/statement"
    if grep -q '^[ ]*requires' "$work/contract"; then fail "$crate::$name has a requires"; else pass; fi
    if [ -s "$work/statement" ]; then pass; else fail "$crate::$name: no theorem $theorem among the laws of crates/$crate"; fi
    case $theorem in same_*) pass ;; *) fail "$crate::$name: $theorem is not named as a theorem of two results" ;; esac
    [ -n "$definitions" ] || fail "$crate::$name names no definition"
    equations_in "$work/contract" >"$work/equations"
    if [ -s "$work/equations" ]; then pass; else fail "$crate::$name has no equation in its contract"; fi
    if [ "$(grep -o '&mut ' "$work/contract" | wc -l)" = "$(grep -c '{ [a-z_]*\.new ≡' "$work/equations" || true)" ]; then
        pass
    else
        fail "$crate::$name does not say what each lent slice holds afterwards"
    fi
    while read -r equation; do
        cited=no
        for definition in $definitions; do
            ! has_word "$definition" <<<"$equation" || cited=yes
        done
        if [ $cited = yes ]; then pass; else fail "$crate::$name: no definition in its row for: $equation"; fi
    done <"$work/equations"
    for definition in $definitions; do
        if grep -qE "^ *(unfoldable |abbrev )?pub $definition :" crates/*/specs/*.antt; then pass; else fail "$crate::$name: no definition $definition"; fi
        if has_word "$definition" <"$work/contract"; then pass; else fail "the contract of $crate::$name does not cite $definition"; fi
        if has_word "$definition" <"$work/statement"; then pass; else fail "theorem $theorem does not cite $definition"; fi
    done
    [ "$first" != "$second" ] || fail "$crate::$name names one edit twice"
    for edit in "$first" "$second"; do
        if [ -z "$edit" ] || [ ! -f "crates/$crate/must-fail/$edit.edit" ]; then
            fail "$crate::$name: no edit '$edit' in crates/$crate/must-fail"
        elif changes_code "crates/$crate/must-fail/$edit.edit"; then
            pass
        else
            fail "$crate::$name: the edit '$edit' changes no code"
        fi
    done
}

public_functions >"$work/functions"
rows_of_the_table >"$work/rows"
without=0
while IFS='|' read -r crate name file line; do
    count=$(grep -c "^$crate::$name|" "$work/rows" || true)
    case $count in
    1) check_row "$crate" "$name" "$file" "$line" ;;
    0)
        fail "$crate::$name ($file:$line) has no row in $table"
        without=$((without + 1))
        ;;
    *) fail "$crate::$name has $count rows in $table" ;;
    esac
done <"$work/functions"

# And the other way: a row is of a function that there is.
while IFS='|' read -r key _; do
    if awk -F'|' -v key="$key" '$1 "::" $2 == key { found = 1 } END { exit !found }' "$work/functions"; then pass; else fail "$table has a row for $key, which is no public function"; fi
done <"$work/rows"

# An edit stands in one row.
while read -r edit; do
    fail "the edit $edit stands in two rows of $table"
done < <(awk -F'|' '{ split($1, name, "::"); print name[1] "/" $4; print name[1] "/" $5 }' "$work/rows" | sort | uniq -d)

# Each theorem and definition that the table names in the form crates/NAME/specs/FILE.antt `name`, or with proofs/, stands there.
while read -r path name; do
    if defines "$path" "$name"; then pass; else fail "$table names $name in $path, where it is not"; fi
done < <(grep -ohE '`crates/[a-z]+/(specs|proofs)/[A-Za-z0-9/]+\.antt` `[^` ]+`' "$table" | tr -d '`')

# And those that the other documents name in the form NAME/specs/FILE `name`, `name`, or with proofs/; or, in docs/MATHEMATICS.md, `name`,
# `name` (FILE), of crate theory, whose laws are in proofs/. A file of inner definitions may be named without its folder.
named_elsewhere() {
    grep -oE '[a-z]+/(specs|proofs)/[A-Za-z0-9/]+ `[^`/ ]+`(, `[^`/ ]+`)*' docs/*.md | while read -r found; do
        place=${found#*:}
        for name in $(grep -oE '`[^`]+`' <<<"$place" | tr -d '`'); do
            echo "${found%%:*} ${place%% *} $name"
        done
    done
    grep -oE '(`[^`/ ]+`, )*`[^`/ ]+`[*]* \([A-Z][A-Za-z]+\)' docs/MATHEMATICS.md | while read -r found; do
        file=${found##*(} folder=specs
        case $file in *Laws\)) folder=proofs ;; esac
        for name in $(grep -oE '`[^`]+`' <<<"$found" | tr -d '`'); do
            echo "docs/MATHEMATICS.md theory/$folder/${file%)} $name"
        done
    done
}
while read -r document place name; do
    case $name in *..) continue ;; esac
    inner=${place%/*}/inner/${place##*/}
    if defines "crates/$place.antt" "$name" || defines "crates/$inner.antt" "$name"; then
        pass
    else
        fail "$document names $name in $place, where it is not"
    fi
done < <(named_elsewhere)

# The table of what must be believed is the one that the sources give.
while IFS= read -r row; do
    if grep -qxF "$row" docs/ARCHITECTURE.md; then pass; else fail "docs/ARCHITECTURE.md has no row: $row"; fi
done < <(python3 tests/lib/believed.py --table)

# What must be believed rests on nothing that is inner, and no definition that serves proofs alone stands among what must be believed.
unreached=$(python3 tests/lib/believed.py --unreached)
if [ -z "$unreached" ]; then pass; else fail "no promise speaks of these definitions, so they belong into specs/inner: $unreached"; fi
if parted=$(python3 tests/lib/believed.py --parted); then
    pass
else
    while read -r line; do fail "$line"; done <<<"$parted"
fi

# A crate with edits has at most 20 functions: each edit has its whole crate proved once more.
for crate in crates/*/; do
    name=$(basename "$crate")
    functions=$(find "$crate"src -name '*.rt' -exec cat {} + | grep -cE '^ *(pub(\(crate\))? )?(extern "C" )?fn ' || true)
    edits=$(find "$crate" -path '*/must-fail/*.edit' | wc -l)
    echo "$name: $functions functions, $edits edits"
    if [ "$edits" = 0 ] || [ "$functions" -le 20 ]; then pass; else fail "$name has edits, and more than 20 functions"; fi
done

python3 tests/lib/believed.py | grep -v '^ '
echo "public functions: $(wc -l <"$work/functions"); with no row: $without"
echo "$passed passed, $failed failed"
[ "$failed" = 0 ]
