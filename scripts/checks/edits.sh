#!/usr/bin/env bash
# The checker rejects each mutant of scripts/mutants/NAME/each_run.edit, for what the function or the `impl` itself has
# to show. `rt ci` can try such edits too, but proves the whole crate again for the first one, so it has none. This
# script needs what `rt ci` proved, and runs after it.
cd "$(dirname "$0")/../.." || exit 2
scripts/reject_mutants.py scripts/mutants/*/each_run.edit &&
  echo "edits: $(cat scripts/mutants/*/each_run.edit | grep -c '^mutant: ') refused"
