#!/usr/bin/env bash
# Lists the names of a crate's proofs, turns them (tools/port_proofs.py), and checks it: port_crate.sh NAME. The log is /tmp/port-NAME.log.
cd "$(dirname "${BASH_SOURCE[0]}")/../crates/$1" || exit 1
rt fmt >/dev/null 2>&1
rm -rf "/tmp/names-$1"
rt check --generated "/tmp/names-$1" --old-names >"/tmp/port-$1.log" 2>&1
[ -f "/tmp/names-$1/names.json" ] || { cat "/tmp/port-$1.log"; exit 1; }
python3 ../../tools/port_proofs.py . "/tmp/names-$1/names.json" | grep -v 'search$'
rt check >"/tmp/port-$1.log" 2>&1
grep -v '^statements\|^rt:\|^logic /\|^checked\|^so far\|: proved$' "/tmp/port-$1.log" | cut -c1-700
