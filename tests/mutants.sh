#!/usr/bin/env bash
# Looks that each wrong body of crates/NAME/mutants/ can be applied, and has the prover refuse one of them: the commit's hash says
# which. Prints a line for each thing that is as it should be: 'ok NAME'. Any other line tells what is not.
set -u
cd "$(dirname "$0")/.." || exit 1

# Of so many wrong bodies one is tried, which takes one to three processor minutes.
parts=$(find crates/*/mutants -name '*.edit' | wc -l)

said=$(tests/mutants apply) && echo "ok mutants: $said" || echo "$said"

hash=$(git rev-parse HEAD 2>/dev/null) || hash=0
sample=$((16#${hash:0:8} % parts))/$parts
while read -r line; do
    case $line in
    # A check of another checkout saves a proof of the crate.
    *': begins with what a check kept in '*) ;;
    *': refused, as it must be'*) echo "ok mutants, sample $sample: ${line%%: *} is refused" ;;
    *) echo "mutants, sample $sample: $line" ;;
    esac
done < <(tests/mutants sample "$sample" 2>&1)
