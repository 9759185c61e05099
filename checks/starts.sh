#!/bin/sh
# How bin/sts comes to its program: what it takes of what is kept, where the checkout is, what happens where a call
# fails, where it is ended, and as root in another user's checkout (checks/starts.py).
# usage: checks/starts.sh
exec python3 -B "$(dirname "$0")/starts.py"
