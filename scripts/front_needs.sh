#!/bin/sh
# Installs what the front and its tests need, from Debian's packages, where something of it is missing.
set -e
packages='python3-aiohttp python3-protobuf python3-snappy python3-prometheus-client python3-pytest protobuf-compiler'
missing=
for package in $packages; do
  [ "$(dpkg-query -W -f '${db:Status-Status}' "$package" 2>/dev/null)" = installed ] || missing="$missing $package"
done
[ -n "$missing" ] || exit 0
echo "installing$missing" >&2
as_root=
[ "$(id -u)" = 0 ] || as_root=sudo
$as_root apt-get update -qq
# The names are apart by spaces.
# shellcheck disable=SC2086
DEBIAN_FRONTEND=noninteractive $as_root apt-get install -y -qq --no-install-recommends $missing >&2
