#!/usr/bin/env bash
# Each text that an edit of scripts/mutants replaces occurs exactly once in its file, so that
# `scripts/reject_mutants.py` can make the edit, and is in the function that the edit names. Notes list the edits that
# take away a call which the proof of the function cites.
cd "$(dirname "$0")/../.." || exit 2
exec scripts/reject_mutants.py --texts
