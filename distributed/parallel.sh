#!/bin/sh
# Answers a statement over all parts with GNU parallel, and prints the merged answer.
#
#     distributed/parallel.sh DIR [OPTIONS OF PARALLEL]
#
# `tq split` made the folder DIR. Options of parallel are, for example, `--jobs 4`, or `--sshloginfile HOSTS` if all hosts see
# DIR under the same path and have `tq`. A part that fails runs once more. If it fails again, the script fails.
set -eu
folder=$1
shift
parallel --halt now,fail=1 --retries 2 "$@" \
    'xargs -0 tq ask -o {}/answer.csv < {}/args' ::: "$folder"/[0-9]*
exec tq merge "$folder"
