#!/usr/bin/env bash
# Measures the program on eight workloads; see workloads.py.
exec python3 "$(dirname "$0")/workloads.py" "$@"
