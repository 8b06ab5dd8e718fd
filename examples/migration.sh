#!/bin/sh
# Opens a database of version 1, examples/version_1.db, as a desk of the first edition made it: the server migrates it, requests
# that were accepted before get the replies that were kept, a module is signed off under the second edition, and the database is read. What
# it writes is in examples/stored/migration.out, where TODAY stands for the date of its last sign-off.
#
# Usage: examples/migration.sh [PORT]
set -eu
. "$(dirname -- "$0")/program.sh"
cp "$top/examples/version_1.db" desk.db
chmod u+w desk.db

waiver='{"last_day":"2026-12-31","owner":"bob","place":"adder.v:2:1","reason":"b is stable","rule":"S1","target":"pair.low.b","top":"pair"}'

# Sends a request as a user, and writes its status and its body.
ask() {
  user=$1
  label=$2
  shift 2
  printf '%s> %s %s\n' "$user" "$2" "$3"
  curl -s --retry 50 --retry-delay 0 --retry-connrefused -H "Desk-User: $user" -H "Desk-Request: $label" \
    -w '\n%{http_code}\n' --data-binary "$1" -X "$2" "http://127.0.0.1:$port$3"
}

# All rows of the tables but for the version and the editions.
read_rows() {
  for table in 'files' 'waivers' 'replies' '(SELECT id, top, who, day, grade, reach FROM signoffs)'; do
    sqlite3 desk.db "SELECT * FROM $table" | sha256sum
  done
}

serve_and_ask() {
  "$program" serve "$port" 7 &
  server=$!
  ask eve 1 '' POST /modules/pair/signoffs
  ask ann 3 "$waiver" POST /waivers
  ask bob 2 '' DELETE /waivers/2
  ask ann - '' GET /files/adder.v
  ask ann - '' GET /waivers
  ask eve 3 '' POST /modules/top/signoffs
  ask ann - '' GET /signoffs
  wait "$server"
  echo "served: $?"
}

read_database() {
  sqlite3 desk.db 'SELECT version FROM meta'
  sqlite3 desk.db 'SELECT id, top, who, grade, edition FROM signoffs ORDER BY id'
}

read_rows >before
{
  "$program" report top
  read_database
  read_rows >after
  cmp before after && echo 'all rows are as they were'
  serve_and_ask
  read_database
  # A second start finds version 2.
  "$program" report top
} >told
sed 's/{"day":"[0-9-]*","edition":2/{"day":"TODAY","edition":2/' told
