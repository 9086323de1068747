#!/usr/bin/env bash
# The names of the library's functions that C headers declare, sorted; those that a header defines itself (static inline) are not among them.
set -euo pipefail
grep -hoE '^(size_t|uint32_t|uint64_t) citternblaze_[a-z_]+\(' "$@" | sed 's/.* //; s/(//' | sort -u
