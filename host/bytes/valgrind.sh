#!/bin/sh
# valgrind.sh SEED ROUNDS: the same under valgrind's memory checker, each slice in an allocation of its own.
UNDER="valgrind --quiet --error-exitcode=1 --leak-check=full --show-leak-kinds=definite --errors-for-leak-kinds=definite" exec "$(dirname "$0")/run.sh" "$@"
