#!/bin/sh
# A value is coded into four fragments, two servers are lost, and the other two give the value back.
cas=${1:-$(dirname "$0")/../cas}
set -- $("$cas" fragments 2 4 68656c6c6f)
echo "kept: $2 $4"
"$cas" decode 2 5 "$2" "$4"
