#!/bin/sh
# Holds the pages to each other: every rule of docs/RULES.md has a row in docs/PROVED.md that begins with its number, and
# no row, and no page, names a rule that there is not. README.md has the table of refusals as docs/RULES.md has it.
#
# Usage: test_papers.sh
set -u

work=$(mktemp -d)
trap 'rm -rf "$work"' EXIT
failed=0

sed -n 's/^- \*\*\([A-Z][A-Z][0-9][0-9]*\)\.\*\*.*/\1/p' docs/RULES.md >"$work/listed"
sort -u "$work/listed" >"$work/rules"
sed -n 's/^| \([A-Z][A-Z][0-9][0-9]*\) .*/\1/p' docs/PROVED.md | sort -u >"$work/rows"

if [ ! -s "$work/rules" ]; then
    echo "papers: no rule is listed in docs/RULES.md" >&2
    exit 1
fi
if [ "$(sort "$work/listed" | uniq -d | wc -l)" -ne 0 ]; then
    failed=1
    echo "papers: docs/RULES.md lists twice:" $(sort "$work/listed" | uniq -d) >&2
fi
if ! diff "$work/rules" "$work/rows" >"$work/diff"; then
    failed=1
    echo "papers: docs/RULES.md and docs/PROVED.md differ (<: a rule without a row, >: a row without a rule)" >&2
    cat "$work/diff" >&2
fi

for page in README docs/RULES; do
    grep -E '^\| [0-9]+ \| [A-Z]' $page.md >"$work/${page#docs/}"
done
if ! diff "$work/RULES" "$work/README" >"$work/diff"; then
    failed=1
    echo "papers: the refusals of docs/RULES.md (<) and of README.md (>) differ" >&2
    cat "$work/diff" >&2
fi

# The two letters of every part; what looks like a rule of one of these parts has to be one.
parts=$(sed 's/[0-9]*$//' "$work/rules" | sort -u | paste -sd '|' -)
for page in README.md docs/*.md docs/landings/*.md include/peerivolt.h; do
    [ -f "$page" ] || continue
    grep -owE "($parts)[0-9]+" "$page" | sort -u | comm -23 - "$work/rules" >"$work/unknown"
    if [ -s "$work/unknown" ]; then
        failed=1
        echo "papers: $page names rules that there are not:" $(cat "$work/unknown") >&2
    fi
done
echo "papers: $(wc -l <"$work/rules") rules, $failed failed"
exit $failed
