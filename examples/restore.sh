#!/bin/sh
# Restores a volume from the tapes and into a real AFS cell: volrestore, and then vos restore.
#
#   restore.sh VOLUME SERVER PARTITION [mm/dd/yyyy [hh:MM]]     in the folder that has media/, cell/ and tapeconfig
#
# The volume is restored beside itself, as VOLUME.r, and nothing is replaced. EXTENSION is what is put behind the name in place of `.r`.
# With an empty EXTENSION the volume itself is restored: what stands in its place is lost, in cell/ and in the cell. The date is UTC;
# without one the latest dump is taken. Where the database knows no dump of the volume, the ports of tapeconfig are registered, and
# their tapes scanned into it. VOS_AUTH is what `vos` is given (-localauth where nothing is said), AFSBACKUP the program.
# Status 0 where the volume is in the cell, 1 where something was refused.
[ $# -ge 3 ] && [ $# -le 5 ] || { echo "usage: restore.sh VOLUME SERVER PARTITION [mm/dd/yyyy [hh:MM]]" >&2; exit 2; }
volume=${1%.backup} server=$2 partition=${3#/}
shift 3
extension=${EXTENSION-.r} auth=${VOS_AUTH--localauth} program=${AFSBACKUP:-afsbackup}
target=$volume$extension
image=cell/$server/$partition/$target.vol
give_up() { echo "restore.sh: $1" >&2; exit 1; }
say() { echo "$1" | "$program" run; }

[ -d media ] || give_up "there is no folder media here"
known=$( { say "volinfo -volume $volume"; say "volinfo -volume $volume.backup"; } | grep -c "^on ")
if [ "$known" = 0 ]; then
    echo "restore.sh: the database knows no dump of $volume; the tapes are scanned" >&2
    # the port is the last word of a device line
    for port in $(awk '!/^#/ && (NF == 2 || NF == 4) && $(NF - 1) ~ /^slots:/ { print $NF }' tapeconfig); do
        say "addhost -tapehost restored -portoffset $port" | grep -v -e "^ok$" -e "^refused 30 "
        say "scantape -dbadd -portoffset $port"
    done
fi

line="volrestore -server $server -partition $partition -volume $volume${extension:+ -extension $extension}${1:+ -date $*}"
reply=$(say "$line -n") || { echo "$reply"; give_up "$volume can't be restored; see which dump or tape is missing"; }
echo "$reply"
reply=$(say "$line") || { echo "$reply"; give_up "$volume wasn't restored"; }
echo "$reply"
if [ "$extension" ]; then how=abort; else how=full; fi
vos restore "$server" "$partition" "$target" -file "$image" -overwrite $how $auth || give_up "vos restore failed; the image is $image"
# the image of a volume that isn't in the set is only read at each run
[ -z "$extension" ] || rm -f "$image"
