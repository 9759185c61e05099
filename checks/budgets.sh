#!/bin/sh
# checks/budgets.py says what this looks at.
# usage: checks/budgets.sh [PROGRAM]
exec python3 -B "$(dirname "$0")/budgets.py" "$@"
