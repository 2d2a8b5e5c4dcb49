#!/usr/bin/env bash
# Tries every wrong body of the crates that it is given (none: of all), and the harmless twin of each, over the libraries that `rt ci` left in this
# checkout. The head of bench/wrong_bodies.py says how.
# usage: bench/wrong_bodies.sh [--jobs N] [NAME..]
exec python3 "$(dirname "$0")/wrong_bodies.py" "$@"
