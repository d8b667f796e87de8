#!/usr/bin/env bash
# carry.sh [PROGRAM [DESK]]: carries requests from a desk to two devices, and their reports back.
# Before the last line the desk is ended and started again with its memory.
set -eu
folder=$(dirname "$(readlink -f "$0")")
crates=$folder/../../crates
program=$(readlink -f "${1:-$crates/device_main/out/device_main}")
desk=$(readlink -f "${2:-$crates/desk_main/out/desk_main}")
cd "$folder"
image=../round/image.hex
work=$(mktemp -d)
trap 'rm -rf "$work"' EXIT
mkfifo "$work/lines" "$work/replies"

# start: a desk that goes on with the memory
start() {
    "$desk" desk keys.txt $image policy.txt "$work/memory" <"$work/lines" >"$work/replies" &
    exec 3>"$work/lines" 4<"$work/replies"
}

# end: the desk's input ends, and so does the desk
end() {
    exec 3>&-
    wait $!
}

# say LINE: a line to the desk; its reply is printed, and stands in `reply`
say() {
    echo "$1" >&3
    read -r reply <&4
    echo "$reply"
}

# play DEVICE: the device gets the request in `reply`, whose counter is at most 255, and its report
# stands in `report`
play() {
    read -r _ _ _ challenge count _ token <<<"$reply"
    printf 'at 0 rx %s\n' "$challenge" 40c046c00003000300000000 "$(printf %02x000000 "$count")" \
        >"$work/script"
    printf 'at %s\n' '0 p1 1234' "400 rx $token" >>"$work/script"
    report=$("$program" play $image "$work/script" "$1.txt" 1192 | grep '^report2 ')
}

"$desk" found "$work/memory" north
start
for device in a b; do
    say "ask $device 1"
    play $device
    say "give $device 2 $report"
done
end
"$desk" states "$work/memory"
start
say "give b 3 $report" # once more: a replay
end
