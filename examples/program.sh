# What the scripts over a server begin with: the program, or the release where none was built here; a port, by the first word;
# `curl` and `sqlite3`; and a room of its own, which goes at the end. Sourced with the script's words.
top=$(CDPATH='' cd -- "$(dirname -- "$0")/.." && pwd)
name=$(basename -- "$0")
program=${DESK_PROGRAM:-$top/crates/desk/out/desk}
if [ -z "${DESK_PROGRAM:-}" ] && [ ! -x "$program" ] && (cd "$top" && sha256sum -c --status dist/desk.sha256) 2>/dev/null; then
  program=$top/dist/desk
fi
port=${1:-8765}
if [ ! -x "$program" ]; then
  printf '%s: there is no program %s: ./desk builds it, or DESK_PROGRAM names another\n' "$name" "$program" >&2
  exit 70
fi
for tool in curl sqlite3; do
  if ! command -v "$tool" >/dev/null 2>&1; then
    printf '%s: %s is not installed\n' "$name" "$tool" >&2
    exit 70
  fi
done
room=$(mktemp -d)
trap 'rm -rf "$room"' EXIT
cd "$room"
