#!/usr/bin/env bash
# Runs each script of examples/ and of tests/scripts/ through the built program, in the life of the file NAME.life if
# there is one. What it prints has to be the file NAME.output, its status that of the file NAME.status (0 if there is
# none), and a run with status 0 prints nothing on standard error. Each row of new-links.rows runs on a link of its own.
set -u
cd "$(dirname "$0")/.." || exit 1
folder=$(mktemp -d) || exit 1
trap 'rm -r "$folder"' EXIT
failed=0

# Says what is wrong with the run of a script.
wrong() {
    echo "$1.script: $2" >&2
    failed=1
}

for script in examples/*.script tests/scripts/*.script; do
    name=${script%.script}
    wanted=0
    [[ -f $name.status ]] && wanted=$(< "$name.status")
    words=(run)
    [[ -f $name.life ]] && words+=(--life "$(< "$name.life")")
    bin/stridelink "${words[@]}" < "$script" > "$folder/output" 2> "$folder/said"
    status=$?
    [[ $status -eq $wanted ]] || wrong "$name" "the status is $status, not $wanted"
    diff "$folder/output" "$name.output" >&2 || wrong "$name" "prints something else"
    [[ $status -ne 0 || ! -s $folder/said ]] || wrong "$name" "says '$(< "$folder/said")'"
done
# Each row of new-links.rows is a script, its lines joined by '; ', and what these are answered. None writes a byte.
while read -r row; do
    asked=${row% => *} wanted=${row#* => }
    diff <(bin/stridelink run <<< "${asked//; /$'\n'}") <(printf '%s\nout -\n' "${wanted//; /$'\n'}") >&2 ||
        { echo "tests/new-links.rows: '$asked' prints something else" >&2; failed=1; }
done < tests/new-links.rows
# A script and the audit of its link print the same report and the same bytes.
for audit in tests/scripts/*-audit.output; do
    name=${audit%-audit.output}
    diff <(sed -n '/^clock/,$p' "$name.output") <(sed -n '/^clock/,$p' "$audit") >&2 ||
        wrong "$name" "differs from its audit"
done
exit "$failed"
