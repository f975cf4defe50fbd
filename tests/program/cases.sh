#!/bin/sh
# Each case, by the built program: what it writes, or the line of its fault with status 1.
set -eu
exec "$(dirname "$0")/../../dev/cases"
