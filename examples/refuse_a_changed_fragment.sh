#!/bin/sh
# Five bytes at threshold 2 are padded to six. A changed fragment whose value would end in another byte is refused.
cas=${1:-$(dirname "$0")/../cas}
"$cas" decode 2 5 0:68656c 1:040a6c
"$cas" decode 2 5 0:68656c 1:040a6d
echo "status $?"
