#!/bin/sh
# The history of an object for other checkers, and what its calls cost; then what cannot be shown, and so is not drawn.
here=$(cd "$(dirname "$0")" && pwd)
trace=${2:-$here/../trace}
scripts=$(mktemp -d)
cp "$here/a_move_under_a_writer.cas" "$scripts/moved.cas"
cp "$here/a_retired_position.cas" "$scripts/retired.cas"
printf 'servers 4\nlayout 2 0 1 2 3\nobject a 0\nwrite a 41\ncall write a\n' >"$scripts/bad.cas"
cd "$scripts" || exit

show() {
    echo "\$ trace $*"
    "$trace" "$@"
    echo "status $?"
}

show history moved.cas a edn
show history moved.cas a json
show costs moved.cas a
# What its calls sent counts, though most of it was dropped since.
show costs retired.cas a
# A name that is not there, a file that is not there, a line that is bad, and words of another form.
show costs moved.cas b
show picture moved.cas b
show picture missing.cas a
show picture bad.cas a
show history moved.cas a xml
rm -r "$scripts"
