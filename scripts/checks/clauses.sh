#!/usr/bin/env bash
# Clauses have at most 100 columns, and comments and imports at most 120. `scripts/clauses.py --write` breaks longer
# ones.
cd "$(dirname "$0")/../.." || exit 2
exec python3 scripts/clauses.py
