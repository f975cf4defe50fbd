#!/bin/sh
# Each request for memory of the built program, refused in turn: of a day on one thread, on four and by eight workers, and of one that
# goes on from earlier ones. It ends with one line that tells it, and no statement, or with the whole one.
set -eu
command -v cc >/dev/null 2>&1 || {
    echo 'refused_memory: there is no C compiler cc, so no request for memory is refused'
    exit 0
}
exec "$(dirname "$0")/../../dev/hostile/run" brief
