#!/bin/sh
# Makes a repository that links the router, and runs its program. It works from any folder.
#
#     examples/link.sh FOLDER    FOLDER is new, or the top of a repository without crates.
#
# If a step fails, what was made is removed.
set -eu

say() {
    echo "link.sh: $1" >&2
}

refuse() { # STATUS WHY
    say "$2"
    exit "$1"
}

if [ $# -ne 1 ] || [ "${1#-}" != "$1" ] || [ -z "$1" ]; then
    refuse 2 "usage: link.sh FOLDER"
fi
for it in crates crates.txt HANDLES; do
    [ ! -e "$1/$it" ] || refuse 2 "$1 has $it already"
done
command -v rt > /dev/null || refuse 1 "the command \`rt\` of the Rattle toolchain is not on PATH"
abr=$(dirname "$(dirname "$(realpath "$0")")")
new=
[ -d "$1" ] || new=$1
[ -z "$new" ] || mkdir -- "$1"
folder=$(realpath -- "$1")

undo() {
    rm -rf "$folder/crates" "$folder/crates.txt" "$folder/HANDLES"
    [ -z "$new" ] || rmdir "$folder"
    say "failed: what was made in $folder is removed"
}
trap undo EXIT
trap 'exit 130' INT
trap 'exit 143' HUP TERM
cd "$folder"
if [ -n "$(git rev-parse --show-prefix 2> /dev/null)" ]; then
    refuse 2 "$folder is not the top of its repository, where \`rt ci\` has to run"
fi

# The crates that abr_router uses, with their lines of crates.txt. (Each line is below those of the
# crates that it names.)
tac "$abr/crates.txt" |
    awk -F '[: ]+' '$1 == "abr_router" || $1 in named { print; for (n = 2; n <= NF; n++) named[$n] }' |
    tac > crates.txt
say "copying $(wc -l < crates.txt) crates of $abr into $folder"
mkdir crates
for crate in $(cut -d : -f 1 crates.txt); do
    mkdir "crates/$crate"
    for part in src specs proofs; do
        [ ! -d "$abr/crates/$crate/$part" ] || cp -R "$abr/crates/$crate/$part" "crates/$crate/"
    done
done
cp "$abr/HANDLES" .

# A program of your own, and what it has to print.
echo 'my_router: abr_router anyhow' >> crates.txt
mkdir crates/my_router
cp -R "$abr/crates/first_use/src" "$abr/crates/first_use/stdout" crates/my_router/
say "running the program from its sources by \`rt try\`, which proves nothing: a minute or two"
(cd crates/my_router && rt try)
trap - EXIT
say "made $folder. \`rt ci\` there proves all and builds crates/my_router/out/my_router"
