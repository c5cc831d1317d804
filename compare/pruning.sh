#!/bin/bash
# The router beside PostgreSQL's own pruning of range partitions: compare/pruning.sh
# Its last line is 'pruning: N compared, 0 different'; the status is 1 if any is different, 2 if it cannot be run.
#
# Needs Debian's package postgresql and Python 3.10 or later, which apt-get installs if there are none. PostgreSQL runs in a temporary
# folder, reached through a socket in it alone; both are gone afterwards. Our program is bin/ask, or the command that ASK names
# (ASK='python3 compare/router.py' puts the model in its place).
set -eu

cd "$(dirname "${BASH_SOURCE[0]}")/.."

as_root() { if [ "$(id -u)" = 0 ]; then "$@"; else sudo "$@"; fi; }

get() { as_root env DEBIAN_FRONTEND=noninteractive apt-get install -y --no-install-recommends "$@"; }

give_up() { echo "compare/pruning.sh: $*" >&2; exit 2; }

newest() { find /usr/lib/postgresql/*/bin -name initdb 2> /dev/null | sort -V | tail -n 1; }

# without the cluster that the package would make and start for itself
install() {
    get postgresql-common || { as_root apt-get update && get postgresql-common; } || return 1
    as_root sed -i 's/^#\?create_main_cluster.*/create_main_cluster = false/' /etc/postgresql-common/createcluster.conf
    get postgresql
}

# PostgreSQL does not run as root
as_user() { if [ "$(id -u)" = 0 ]; then runuser -u postgres -- "$@"; else "$@"; fi; }

command -v python3 > /dev/null || { get python3 || { as_root apt-get update && get python3; }; } >&2 || give_up "there is no Python, and apt-get cannot install it"
[ -n "$(newest)" ] || install >&2 || give_up "there is no PostgreSQL, and apt-get cannot install it"
bin=$(dirname "$(newest)")

read -ra ask <<< "${ASK-bin/ask}"
"${ask[@]}" < /dev/null > /dev/null || give_up "${ask[*]} does not run" # which also builds it

dir=$(mktemp -d)
finish() {
    (cd / && as_user "$bin/pg_ctl" -D "$dir/data" -m immediate stop > /dev/null 2>&1) || true
    rm -rf "$dir"
}
trap finish EXIT
[ "$(id -u)" != 0 ] || chown postgres "$dir"

(
    cd /
    as_user "$bin/initdb" -D "$dir/data" -U postgres -A trust --no-sync > "$dir/log" 2>&1
    as_user "$bin/pg_ctl" -D "$dir/data" -l "$dir/server" -o "-k $dir -c listen_addresses='' -c fsync=off" -w start >> "$dir/log" 2>&1
) || { cat "$dir/log" "$dir/server" >&2; give_up "PostgreSQL does not start"; }

PYTHONDONTWRITEBYTECODE=1 python3 compare/pruning.py "$bin/psql" "$dir" "${ask[@]}"
