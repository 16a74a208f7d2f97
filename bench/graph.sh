#!/usr/bin/env bash
# Compares the way from texts to a graph with a plain C tokenizer, which does the first step alone, over a project of 1,024
# files of at most 16 KB. It also prints how the time grows to 4,096 files, and the seconds of hostile projects. What the
# library takes to make the project and its own copies of the texts is measured by a call of its own, and taken off.
#
# usage: graph.sh [ROUNDS]
set -e
. "$(dirname "$0")/scanner.sh" graph
"$work/graph" "${1:-5}"
