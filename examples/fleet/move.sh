#!/usr/bin/env bash
# move.sh OLD NEW DEVICES [DESK]: moves devices with their states from the desk in the folder OLD to
# that in NEW, both of which were stopped. DEVICES is a file with their lines of KEYS. A desk has the
# name of its folder.
#
# It may be killed at any moment: nothing is lost, and the same call goes on. At each moment at most
# one of the two desks has the device, with all that was answered.
set -eu
if [ $# -lt 3 ]; then
    sed -n 2,7p "$0"
    exit 2
fi
old=$(readlink -m "$1") new=$(readlink -m "$2") devices=$(readlink -m "$3")
desk=$(readlink -f "${4:-$(dirname "$(readlink -f "$0")")/../../crates/desk_main/out/desk_main}")
name=${new##*/}
leaving=$old/leaving-$name.txt
umask 077

# refuse STATUS TEXT: ends it before more was done
refuse() {
    echo "move.sh: $2" >&2
    exit "$1"
}
for each in "$old/keys.txt" "$new/keys.txt" "$old/memory" "$new/memory" "$devices"; do
    [ -f "$each" ] || refuse 3 "there is no $each"
done
for each in "$old" "$new"; do
    [ -O "$each" ] || refuse 2 "$each is another user's: run it as the user of the desks"
done

# No desk of either folder serves, and none starts, while this one lives.
exec 8>"$old/lock" 9>"$new/lock"
if ! flock -n 8 || ! flock -n 9; then
    refuse 17 "a desk of $old or $new serves; stop both"
fi

# with LINES, without LINES: of keys the lines of the devices that LINES name, the others
with() {
    awk 'NR == FNR { if ($1 == "device") names[$2]; next } $2 in names' <(echo "$1") -
}
without() {
    awk 'NR == FNR { if ($1 == "device") names[$2]; next } !($2 in names)' <(echo "$1") -
}

# refuse_any LINES TEXT: nothing is done where there are such lines
refuse_any() {
    [ -z "$1" ] || refuse 2 "$2 $(awk '{ print $2 }' <<<"$1" | xargs)"
}

# put FILE: its text is standard input, or what it was before
put() {
    cat >"$1.next"
    sync "$1.next"
    mv "$1.next" "$1"
    sync "$(dirname "$1")"
}

has=$(cat "$new/keys.txt")
refuse_any "$(with "$has" <"$old/keys.txt")" "both desks have"
coming=$(without "$has" <"$devices")
if [ -z "$coming" ]; then
    rm -f "$leaving"
    echo "move.sh: $new has them all"
    exit
fi
# (those that left in an earlier call to this desk are its own)
had=$(cat "$old/keys.txt" "$leaving" 2>/dev/null || true)
refuse_any "$(without "$had" <<<"$coming")" "$old has not"
printf '%s\n%s\n' "$has" "$coming" >"$new/keys.coming"
"$desk" desk "$new/keys.coming" "$new/image.hex" "$new/policy.txt" </dev/null

# 1. From here on the old desk refuses them, whatever comes. (That they were its own is noted.)
{
    cat "$leaving" 2>/dev/null || true
    echo "$coming"
} | put "$leaving"
staying=$(without "$coming" <"$old/keys.txt")
put "$old/keys.txt" <<<"$staying"

# 2. The old memory keeps that they are gone, and the new one gets them. One that was never asked is
# in no memory.
: >"$new/moved.txt"
while read -r _ each _; do
    if ! line=$("$desk" move "$old/memory" "$each" "$name" 2>&1 >>"$new/moved.txt") &&
        [ "$line" != 'bad memory: it has no such device' ]; then
        refuse 16 "$each: $line"
    fi
done <<<"$coming"
"$desk" adopt "$new/moved.txt" "$new/memory"

# 3. From here on the new desk serves them.
put "$new/keys.txt" <"$new/keys.coming"
rm -f "$leaving" "$new/keys.coming" "$new/moved.txt"
