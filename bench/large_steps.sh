#!/usr/bin/env bash
# Lists the functions of the crate in the current folder, or of all crates, whose proof has more than 3 MB of steps: these are to be split.
# It is run after rt check, at a crate's end.
cd "${1:-.}" && find . -path '*/out/incremental/*' -name '*-proofs.*.Lts.oantt' -size +3000k -printf '%10s %f\n' | sort -rn
