#!/bin/sh
# Signs a module off through the desk's server: two people put a file each, one asks for the ruling,
# a finding is waived, the module is signed off, a request comes again and gets the reply that was
# kept, what was signed is seen to be what is there, the database is read, and a row of it is made a bad one. What it writes is in examples/stored/server.out, where TODAY and
# LATER stand for the dates.
#
# Usage: examples/server.sh [PORT]
set -eu
. "$(dirname -- "$0")/program.sh"
today=$(date -u +%F)
later=$(date -u -d '+30 days' +%F)

cat >adder.v <<'EOF'
module adder(input [3:0] a, b, output reg [3:0] sum);
always @(a) sum = a + b;
endmodule
EOF
cat >pair.v <<'EOF'
module pair(input [3:0] a, b, c, output [3:0] sum);
wire [3:0] first;
adder low(.a(a), .b(b), .sum(first));
adder high(.a(first), .b(c), .sum(sum));
endmodule
EOF
waiver() {
  printf '{"last_day":"%s","owner":"bob","place":"adder.v:2:1","reason":"b is stable","rule":"S1","target":"pair.%s.b","top":"pair"}' "$later" "$1"
}

# Sends a request as a user, and writes its status and its body.
ask() {
  user=$1
  label=$2
  shift 2
  printf '%s> %s %s\n' "$user" "$3" "$4"
  curl -s --retry 50 --retry-delay 0 --retry-connrefused -H "Desk-User: $user" -H "Desk-Request: $label" \
    -w '\n%{http_code}\n' "$1" "$2" -X "$3" "http://127.0.0.1:$port$4"
}

serve_and_ask() {
  "$program" serve "$port" 10 &
  server=$!
  ask ann 1 --data-binary @adder.v PUT /files/adder.v
  ask bob 1 --data-binary @pair.v PUT /files/pair.v
  ask ann 2 --data-binary '' GET /modules/pair/ruling
  ask ann 3 --data-binary "$(waiver low)" POST /waivers
  ask ann 4 --data-binary "$(waiver high)" POST /waivers
  ask bob 2 --data-binary '' POST /modules/pair/signoffs
  ask eve 1 --data-binary '' POST /modules/pair/signoffs
  ask eve 1 --data-binary '' POST /modules/pair/signoffs
  ask ann 5 --data-binary '' GET /signoffs
  ask ann 6 --data-binary '' GET /modules/pair/reach
  wait "$server"
  echo "served: $?"
}

read_database() {
  "$program" report pair || echo "report: $?"
  sqlite3 desk.db 'SELECT name, editor, length(text) FROM files ORDER BY rowid'
  sqlite3 desk.db "SELECT id, target, owner, date(last_day * 86400, 'unixepoch') FROM waivers ORDER BY id"
  sqlite3 desk.db 'SELECT id, top, who, grade FROM signoffs ORDER BY id'
}

# A grade that is none makes its row a bad one.
break_database() {
  sqlite3 desk.db "UPDATE signoffs SET grade = 'perfect'"
  "$program" report pair || echo "report: $?"
}

serve_and_ask >told
read_database >>told
break_database >>told
sed "s/$today/TODAY/g; s/$later/LATER/g" told
