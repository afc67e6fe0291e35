#!/bin/bash
# Each of the first requests for memory of `ggvax run hi.s 7` fails in turn: the status is 2 each time, while the words are read too.
# Run it at the repository's root; it builds nothing and proves nothing.
cd "$(dirname "$0")/../crates/ggvax" || exit 1
for n in $(seq 1 "${1:-12}"); do
  rt try --fail-alloc "$n" --data hi.s=../../examples/hi.s -- run hi.s 7 </dev/null 2>&1 | grep -q 'status=2 ' || { echo "request $n: the status is not 2"; exit 1; }
done
echo "status 2 at each request"
