# Sets up a server for a script of this folder, which is stopped where the script ends: `program`, `port`, `here`, `bin` and `folder` (with its
# socket) are set, and `as COMMAND` runs a command as the user that the server runs as.
program=$1
port=${2:-$port}
here=$(cd "$(dirname "$0")" && pwd)
bin=${PG_BIN:-/usr/lib/postgresql/15/bin}
folder=$("$here/server.sh" "$port") || exit 1
as() { if [ "$(id -u)" = 0 ]; then su postgres -c "$1"; else sh -c "$1"; fi; }
trap 'as "$bin/pg_ctl -D $folder/data -m immediate stop" > /dev/null 2>&1; rm -rf "$folder"' EXIT
