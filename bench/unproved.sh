#!/usr/bin/env bash
# Builds the program without its proofs, so that a change can be measured before it is proved. Takes the program to write;
# `scripts/unproved.sh` tells the rest.
exec "$(dirname "$(readlink -f "$0")")/../scripts/unproved.sh" "$@"
