#!/bin/sh
# The whole gate, with as many checks side by side as fit.
set -e
cd "$(dirname "$0")/.."
RT_JOBS=${RT_JOBS:-$(scripts/jobs.sh)}
export RT_JOBS
exec rt ci
