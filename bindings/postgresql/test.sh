#!/bin/sh
# Tests the extension of PostgreSQL with the proved code in the folder that the variable BCS_LIB names, or in
# dist/x86_64-linux. For that it starts a server in a folder of its own, and ends it at the end. It installs nothing in the
# system. Run as root, it needs the user `postgres`, since root can't run the server.
set -eu
unset CDPATH
here=$(cd "$(dirname "$0")" && pwd)
root=$(cd "$here/../.." && pwd)
lib=$(realpath "${BCS_LIB:-$root/dist/x86_64-linux}")
export PG_CONFIG="${PG_CONFIG:-/usr/lib/postgresql/15/bin/pg_config}" PYTHONDONTWRITEBYTECODE=1
programs=$("$PG_CONFIG" --bindir)

fail() {
    echo "postgresql: FAILED: $1" >&2
    exit 1
}

# logged NAME COMMAND..: prints what the command printed only if it fails.
logged() {
    local name="$1"
    shift
    if ! "$@" >"$room/log" 2>&1; then
        cat "$room/log"
        fail "$name"
    fi
}

# as_server COMMAND..: runs a command as the server's user.
as_server() {
    if [ "$(id -u)" = 0 ]; then
        setpriv --reuid postgres --regid postgres --clear-groups "$@"
    else
        "$@"
    fi
}

room=$(mktemp -d)
server=$room$programs
end() {
    [ ! -e "$room/data/postmaster.pid" ] || as_server "$server/pg_ctl" -D "$room/data" -m immediate stop >"$room/log" || true
    rm -rf "$room"
}
trap end EXIT
trap 'exit 1' HUP INT TERM

# Makes a copy of the server's files, with links for all but the programs, which look for the rest beside themselves.
make_tree() {
    local folder libraries shared
    libraries=$("$PG_CONFIG" --pkglibdir)
    shared=$("$PG_CONFIG" --sharedir)
    mkdir -p "$server"
    cp "$programs/postgres" "$programs/initdb" "$programs/pg_ctl" "$server"
    for folder in "$libraries" "$shared"; do
        mkdir -p "$room$(dirname "$folder")"
        cp -as "$folder" "$room$folder"
    done
}

build() {
    mkdir -p "$room/src/c"
    cp -r "$here" "$here/../sql" "$room/src"
    cp -r "$here/../c/include" "$room/src/c"
    logged "make" make -C "$room/src/postgresql" BCS_LIB="$lib" COPT=-Werror
    logged "make install" make -C "$room/src/postgresql" BCS_LIB="$lib" install DESTDIR="$room"
}

# (initdb and pg_ctl need a current folder that the server's user may read)
make_data() {
    cd "$room" && as_server "$server/initdb" -D data -A trust -U postgres --no-sync --locale=C -E UTF8
}
# Memory has a limit, so that running out of it is an error and ends no other process.
start_server() {
    cd "$room" && as_server prlimit --as=2048000000 --stack=8388608 "$server/pg_ctl" -D data -w -l data/log start \
        -o "-k $room/socket -c listen_addresses= -c fsync=off -c shared_buffers=16MB -c wal_level=logical"
}
# Starts the server on a socket in the room.
start() {
    chmod 755 "$room"
    mkdir "$room/data" "$room/socket"
    [ "$(id -u)" != 0 ] || chown postgres "$room/data" "$room/socket"
    (make_data) >"$room/log" 2>&1 || { cat "$room/log" && fail "initdb"; }
    (start_server) >"$room/log" 2>&1 || { cat "$room/log" "$room/data/log" && fail "the server doesn't start"; }
}

make_tree
build
start
export PATH="$programs:$PATH" PGHOST="$room/socket" PGUSER=postgres
if ! make -C "$room/src/postgresql" BCS_LIB="$lib" installcheck \
    EXTRA_REGRESS_OPTS="--host=$PGHOST --user=postgres --outputdir=$room/results" >"$room/log" 2>&1; then
    cat "$room/log" "$room/results/regression.diffs"
    fail "pg_regress"
fi
scripts=$(grep -c ' ok  ' "$room/log") || fail "pg_regress runs no scripts"
echo "postgresql: pg_regress: $scripts scripts"
for tests in sessions rights hostile sql_types; do
    (cd "$room" && as_server /usr/bin/python3 "src/postgresql/tests/$tests.py") || fail "tests/$tests.py"
done
createdb rows
psql --quiet --command "create schema bcs" --command "create extension bcs schema bcs" \
    --command "alter database rows set search_path = public, bcs" rows
/usr/bin/python3 "$root/bindings/sql/examples.py" postgresql dbname=rows "$here/README.md" || fail "the examples"
python3 "$root/tests/rows" --without changes postgresql \
    /usr/bin/python3 "$root/bindings/sql/driver.py" postgresql dbname=rows || fail "the rows"
[ -s "$room/data/log" ] || fail "the server has no log"
if grep -E 'terminated by signal|PANIC' "$room/data/log"; then
    fail "a process of the server crashed"
fi
