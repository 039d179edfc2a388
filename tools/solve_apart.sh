#!/usr/bin/env bash
# One program by its parts: each kind of program beside one `solve`; servers that die, lie, are full or gone; a tool that is killed and
# started again; words and files that are refused.
. "$(dirname "$0")/program.sh"
PYTHONPATH=tools:clients/python:bench exec python3 tools/try_apart.py
