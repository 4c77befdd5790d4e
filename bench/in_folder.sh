# For a bench that works in a folder: the program that its first argument names, and a folder in the one that TMPDIR names, which is removed
# at the end. `measure` runs the Python text that it is given on its input.
set -eu
program=$(realpath "${1:-./afsbackup}")
here=$(cd "$(dirname "$0")" && pwd)
folder=$(mktemp -d)
trap 'rm -rf "$folder"' EXIT

measure() {
    PYTHONPATH="$here" PYTHONDONTWRITEBYTECODE=1 python3 - "$program" "$folder"
}
