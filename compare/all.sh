#!/bin/bash
# The crate and our program on millions of inputs, each difference held to docs/DIFFERENCES.md: compare/all.sh [quick]
# Its last line is 'N compared, M listed differences, 0 unlisted'; the status is 1 if any is unlisted, or if a place, a footage, a position,
# a reason, a route, a shot list or what is written is wrong.
#
# On standard error it tells how far it is; where that is no terminal, only what begins.
#
# Needs what compare/judge.sh needs, and Python 3.10 or later, which apt-get installs if there is none. Our program is
# bin/ask, or the command that ASK names (ASK='python3 compare/forms.py' puts the model in its place).
set -eu

cd "$(dirname "${BASH_SOURCE[0]}")/.."
case ${1-full} in
    full | quick) ;;
    *) echo "usage: compare/all.sh [quick]" >&2; exit 2 ;;
esac

as_root() { if [ "$(id -u)" = 0 ]; then "$@"; else sudo "$@"; fi; }

get() { as_root env DEBIAN_FRONTEND=noninteractive apt-get install -y --no-install-recommends "$@"; }

if ! command -v python3 > /dev/null; then
    { get python3 || { as_root apt-get update && get python3; }; } >&2
fi

read -ra ask <<< "${ASK-bin/ask}"
if ! "${ask[@]}" < /dev/null > /dev/null; then # which also builds it
    echo "compare/all.sh: ${ask[*]} does not run" >&2
    exit 2
fi

PYTHONDONTWRITEBYTECODE=1 python3 compare/places.py "${1-full}" "${ask[@]}"
PYTHONDONTWRITEBYTECODE=1 python3 compare/footages.py "${1-full}" "${ask[@]}"
PYTHONDONTWRITEBYTECODE=1 python3 compare/positions.py "${1-full}" "${ask[@]}"
PYTHONDONTWRITEBYTECODE=1 python3 compare/why.py "${1-full}" "${ask[@]}"
PYTHONDONTWRITEBYTECODE=1 python3 compare/routes.py "${1-full}" "${ask[@]}"
PYTHONDONTWRITEBYTECODE=1 python3 compare/lists.py "${1-full}" "${ask[@]}"

[ -n "${ASK-}" ] || compare/written.sh

judge=$(compare/judge.sh build)
PYTHONDONTWRITEBYTECODE=1 exec python3 compare/all.py "${1-full}" "$judge" "${ask[@]}"
