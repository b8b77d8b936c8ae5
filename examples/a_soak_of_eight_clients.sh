#!/bin/sh
# Eight clients make 200 calls each at once, while an administrator moves both objects.
cas=${1:-$(dirname "$0")/../cas}
"$cas" soak 8 200 6 1
