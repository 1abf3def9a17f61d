# What the scripts of this folder share: the repository, the kit, and the rows of table.txt.
set -eu
root=$(cd "$(dirname "${BASH_SOURCE[0]}")/../.." && pwd)
here=$root/tools/targets
made=$root/build/targets
kit=$(dirname "$(rt doc)")
clang=$kit/toolchain/bin/clang
mkdir -p "$made"
export PYTHONDONTWRITEBYTECODE=1
read -ra crates <<<"$(python3 "$here/exported.py")"

# For qemu's boards: what they say by semihosting is standard output, and nothing else is shown or asked.
semihosting=(-chardev stdio,id=said -semihosting-config enable=on,target=native,chardev=said -display none -monitor none -serial none -parallel none)

fail() { echo "$*" >&2; exit 1; }

# The names of the table's rows.
names() { sed -n 's/^\([a-z0-9-]*\) *|.*/\1/p' "$here/table.txt"; }

# Sets `runner`, `cpu` and `options` for a target, or says which there are.
read_row() { # NAME
  local row
  row=$(awk -F' *[|] *' -v name="$1" '$1 == name { print $2 "|" $3 "|" $4 }' "$here/table.txt")
  [ -n "$row" ] || fail "no target $1 in tools/targets/table.txt; there are: $(names | tr '\n' ' ')"
  IFS='|' read -r runner cpu options <<<"$row"
  read -ra options <<<"$options"
}
