#!/bin/sh
# Ships the objects of FOLDER, which never change, to REMOTE, a place of rclone such as store:logs/one; or brings them back.
#
#   objects.sh ship FOLDER REMOTE    those of the last hour that are not there yet; run it each minute
#   objects.sh all FOLDER REMOTE     all that are not there yet, and compares what is there; run it each day
#   objects.sh back FOLDER REMOTE    those that FOLDER has not; run it before a start, while no program runs
#
# A chunk goes before its index row, as in FOLDER. The status is that of rclone.
set -eu
what=$1 objects=$2/objects remote=$3
copy() {
  rclone copy --ignore-existing --include 'c-*[0-9a-f]' "$@"
  rclone copy --ignore-existing --include 'r-*[0-9a-f]' "$@"
}
case $what in
  ship) copy --max-age 1h --no-traverse "$objects" "$remote" ;;
  all)
    copy "$objects" "$remote"
    rclone check --one-way --include '[cr]-*[0-9a-f]' "$objects" "$remote"
    ;;
  back) mkdir -p "$objects" && copy "$remote" "$objects" ;;
  *) echo "ship, all or back is wanted, not $what" >&2 && exit 2 ;;
esac
