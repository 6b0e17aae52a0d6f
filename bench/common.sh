# What the scripts of this folder share: a folder for what they make, which goes with them, and pushes to make there.
LC_ALL=C
export LC_ALL
folder=$(mktemp -d)
trap 'rm -rf "$folder"' EXIT
trap 'exit 1' HUP INT TERM

# make_pushes PUSHES ENTRIES_A_PUSH: entries of 120 bytes to 1,000 streams in turn, a millisecond between stamps.
make_pushes() {
  awk -v pushes="$1" -v per_push="$2" 'BEGIN {
    for (p = 0; p < pushes; p++) {
      printf "{\"cmd\":\"push\",\"tenant\":\"t\",\"now\":\"2000000000000000\",\"streams\":[{\"stream\":{\"app\":\"web\",\"pod\":\"p%d\"},\"values\":[", p % 1000
      for (i = 0; i < per_push; i++) printf "%s[\"1%09d000000\",\"%0120d\"]", i ? "," : "", p * per_push + i, i
      print "]}]}"
    }
  }'
}
