#!/usr/bin/env bash
# The same from a shell, with the store as a coprocess.
#
#     examples/client.sh [PROGRAM]
set -eu

coproc STORE { "${1:-./lhash}" serve; }
exec 3>&"${STORE[1]}"

ask() {
    echo "$1" >&3
    read -r answer <&"${STORE[0]}"
    echo "$1: $answer"
}

ask "insert 616461 30313732"
ask "search 616461"
ask "frob"
ask "records"
