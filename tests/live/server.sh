#!/usr/bin/env bash
# Starts a PostgreSQL server of its own in a new folder, with one user for each method of authentication, and prints the folder.
#
#     tests/live/server.sh PORT
#
# `pg_ctl -D FOLDER/data stop` stops it. It runs as the user `postgres` where this is run by root.
set -eu
port=${1:-54329}
bin=${PG_BIN:-/usr/lib/postgresql/15/bin}
folder=$(mktemp -d /tmp/live.XXXXXX)
as() { if [ "$(id -u)" = 0 ]; then su postgres -c "$1"; else sh -c "$1"; fi; }
[ "$(id -u)" = 0 ] && chown postgres "$folder"
chmod 755 "$folder"
as "$bin/initdb -D $folder/data -U postgres -A trust -E UTF8 --locale=C" > /dev/null
cat > "$folder/hba" <<'HBA'
local all postgres         trust
local all trusted          trust
local all clear            password
local all hashed           md5
local all scrammed         scram-sha-256
host  all trusted 127.0.0.1/32 trust
host  all clear   127.0.0.1/32 password
host  all hashed  127.0.0.1/32 md5
host  all scrammed 127.0.0.1/32 scram-sha-256
HBA
cp "$folder/hba" "$folder/data/pg_hba.conf"
as "$bin/pg_ctl -D $folder/data -l $folder/log -w -o '-p $port -k $folder -c listen_addresses=127.0.0.1' start" > /dev/null
psql -h "$folder" -p "$port" -U postgres -q <<'SQL'
CREATE USER trusted;
CREATE USER clear PASSWORD 'pencil';
CREATE USER scrammed PASSWORD 'pencil';
SET password_encryption = 'md5';
CREATE USER hashed PASSWORD 'pencil';
SQL
echo "$folder"
