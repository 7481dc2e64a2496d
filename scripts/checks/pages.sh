#!/usr/bin/env bash
# The pages: scripts/pages.py says what is asked of them.
cd "$(dirname "$0")/../.." || exit 2
exec python3 scripts/pages.py
