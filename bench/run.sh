#!/usr/bin/env bash
# Runs the measurements of this folder one after another, except scale.py. Build the program first: `make build`.
set -euo pipefail
cd "$(dirname "$0")/.."
for script in bench/versus.py bench/shapes.py bench/crowds.py bench/claims.* bench/tree.* bench/store.* bench/workers.py bench/sessions.py bench/dates.py bench/imports.py bench/parts.py bench/formats.py bench/snapshot.py; do
    case "$script" in
        *.py) command=(python3 "$script") ;;
        *.sh) command=(bash "$script") ;;
        *) continue ;;
    esac
    [ -f "$script" ] || continue
    echo "== $script"
    "${command[@]}"
done
