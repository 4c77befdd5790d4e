#!/bin/sh
# Dumps the volumes of a real AFS cell: clones those whose names begin with PREFIX, puts their dump streams into cell/ as images, and
# runs one `dump` of afsbackup.
#
#   nightly.sh PREFIX SET LEVEL          in the folder that has media/, cell/ and tapeconfig; for cron
#
# The set's entry names backup volumes alone (-volumes user\..*\.backup). The read/write volume's image is there as well, and as new: it
# tells when the volume was created or restored, so that an increment isn't made over an older state. VOS_AUTH is what `vos` is given
# (-localauth where nothing is said), AFSBACKUP the program. Status 0 where all was dumped, 1 where a volume was left out: since its
# stream isn't one that afsbackup takes (a file over 16 MiB, ..), since it has times in the future, with which all dumps would count as
# expired, or since `vos` refused it.
[ $# = 3 ] || { echo "usage: nightly.sh PREFIX SET LEVEL" >&2; exit 2; }
prefix=$1 set=$2 level=$3
auth=${VOS_AUTH--localauth} program=${AFSBACKUP:-afsbackup}
status=0
left_out() { echo "nightly.sh: $1 is left out: $2" >&2; status=1; }

vos backupsys -prefix "$prefix" $auth > /dev/null || { echo "nightly.sh: vos backupsys failed" >&2; status=1; }
# name, server and partition of each read/write volume of the prefix
volumes=$(vos listvldb -quiet -noresolve $auth | awk -v p="$prefix" '
    /^[^ ]/ { name = $1 }
    / RW Site/ { if (index(name, p) == 1) print name, $2, substr($4, 2) }') || exit 1
[ -n "$volumes" ] || { echo "nightly.sh: no volume begins with $prefix" >&2; exit 1; }

fresh=$(mktemp) && lines=$(mktemp) && trap 'rm -f "$fresh" "$lines"' EXIT || exit 1
has_future() { awk -v now="$(date +%s)" '/^(dir|file|link) / && $5 > now + 60 { late = 1 } END { exit !late }' "$lines"; }
while read -r name server partition; do
    folder=cell/$server/$partition
    mkdir -p "$folder"
    for volume in "$name" "$name.backup"; do
        file=$folder/$volume.vol
        if ! vos dump -id "$volume" -file "$file-new" $auth > /dev/null 2>&1; then
            left_out "$volume" "vos dump failed"
        elif ! "$program" examine < "$file-new" > "$lines"; then
            left_out "$volume" "$(tail -n 1 "$lines")"
        elif has_future; then
            left_out "$volume" "it has times in the future"
        else
            mv "$file-new" "$file" && echo "$file" >> "$fresh"
            continue
        fi
        rm -f "$file-new"
    done
done <<EOL
$volumes
EOL
# images of volumes that are gone, were moved, or are left out: an old image would be dumped as if it were new
find cell -name "$prefix*.vol" | while read -r file; do
    grep -qxF "$file" "$fresh" || rm "$file"
done

reply=$(echo "dump -volumeset $set -dump $level" | "$program" run) || status=1
echo "$reply"
exit $status
