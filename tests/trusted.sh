#!/usr/bin/env bash
# The page of what must be trusted is up to date. Skipped where there is no Python.
command -v python3 >/dev/null || { echo "trusted: skipped, no python3"; exit 0; }
python3 "$(dirname "$0")/trusted.py" --check
