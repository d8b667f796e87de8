#!/usr/bin/env bash
# desk.sh FOLDER K [DESK]: answers the lines of the topic desk/K/lines to desk/K/replies, until one
# of its three programs ends; then it ends the others, with that status.
#
# FOLDER has image.hex, policy.txt, keys.txt, and the memory that was founded there. Broker, user and
# password stand in $XDG_CONFIG_HOME, in the files mosquitto_sub and mosquitto_pub. DESK is the
# proved program if none is named.
set -eu
if [ $# -lt 2 ]; then
    sed -n 2,7p "$0"
    exit 2
fi
desk=$(readlink -f "${3:-$(dirname "$(readlink -f "$0")")/../../crates/desk_main/out/desk_main}")
cd "$1"
umask 077
trap '' XFSZ # (a file past its limit is a fault of writing, and no end of the desk)

# No other desk of this folder serves, and no device is moved, while one of the programs runs.
exec 9>lock
if ! flock -w 10 9; then
    echo "desk.sh: $1: another desk serves here, or devices are being moved" >&2
    exit 17
fi

# The script holds both pipes open: where one program is killed in the midst of a line the next sees
# no end of its input, by which half a line would be a line.
rm -f lines replies
mkfifo lines replies
exec 7<>lines 8<>replies
mosquitto_sub -q 1 -t "desk/$2/lines" >lines 7>&- 8>&- &
"$desk" desk keys.txt image.hex policy.txt memory <lines >replies 7>&- 8>&- &
mosquitto_pub -q 1 -l -t "desk/$2/replies" <replies 7>&- 8>&- &

end() {
    # shellcheck disable=SC2046 # (a word for each job)
    kill $(jobs -rp) 2>/dev/null || true
    wait
}
trap end EXIT
trap 'exit 143' TERM
wait -n
