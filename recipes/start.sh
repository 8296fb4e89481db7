# The beginning of each recipe: makes a new folder, removed at the end, with the given program as `aec`.
set -euo pipefail
command -v "${1:-}" > /dev/null || {
    sed -n 's/^# usage/usage/p' "$0" >&2
    exit 2
}
program=$(realpath "$(command -v "$1")")
recipes=$(realpath "$(dirname "$0")")
folder=$(mktemp -d)
trap 'rm -rf "$folder"' EXIT
mkdir "$folder/bin"
ln -s "$program" "$folder/bin/aec"
PATH=$folder/bin:$PATH
cd "$folder"
