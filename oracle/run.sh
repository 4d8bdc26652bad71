#!/bin/sh
# Builds the oracle if it is not up to date, and runs it: run.sh K < TEXT
# Needed: as for build.sh.
set -eu
here=$(cd "$(dirname "$0")" && pwd)
"$here/build.sh"
exec "$here/target/oracle" "$@"
