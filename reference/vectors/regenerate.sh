#!/bin/sh
# Makes messages.txt again with an XDR implementation that is not ours.
# Needs rpcgen and libtirpc: apt-get install rpcsvc-proto libtirpc-dev
set -eu
here=$(cd "$(dirname "$0")" && pwd)
work=$(mktemp -d)
trap 'rm -rf "$work"' EXIT
cp "$here/../../include/message.x" "$here/../../include/yelansub.h" "$here/make.c" "$work"
cd "$work"
rpcgen -h -o message.h message.x
rpcgen -c -o message_xdr.c message.x
gcc -std=gnu11 -Wall -Werror -Wno-unused-variable -I/usr/include/tirpc -o make make.c message_xdr.c -ltirpc
./make > "$here/messages.txt"
wc -l < "$here/messages.txt"
