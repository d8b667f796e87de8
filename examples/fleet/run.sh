#!/usr/bin/env bash
# run.sh [PROGRAM [DESK]]: a fleet on this machine: a broker, four desks, and 1,000 devices behind
# four gateways, until each device was attested three times. DEVICES, PORT and WORK name another
# number, the port (on 127.0.0.1 alone) and a folder to be kept.
#
# PROGRAM, which has `live`, and DESK are the proved programs if none are named.
set -eu
folder=$(dirname "$(readlink -f "$0")")
crates=$folder/../../crates
program=$(readlink -f "${1:-$crates/debug_main/out/debug_main}")
desk=$(readlink -f "${2:-$crates/desk_main/out/desk_main}")
devices=${DEVICES:-1000} port=${PORT:-18830} desks=4 gateways=4
PATH=$PATH:/usr/sbin
umask 077

say() {
    echo "run.sh: $*" >&2
}

# refuse TEXT: ends it before anything is done
refuse() {
    say "$1"
    exit 2
}

for tool in mosquitto mosquitto_sub mosquitto_pub flock python3; do
    command -v $tool >/dev/null ||
        refuse "there is no $tool: apt-get install mosquitto mosquitto-clients"
done
for each in "$program" "$desk"; do
    [ -x "$each" ] ||
        refuse "no proved program at $each: ./foldgneiss build, or name PROGRAM and DESK"
done
[ "$devices" -le 6000 ] || refuse "four desks have room for 6,000 devices, shared by chance"
[ ! -e "${WORK:-}" ] || refuse "WORK=$WORK is there already: name a new folder"

jobs=()
work=$(readlink -m "${WORK:-$(mktemp -d)}")
finish() {
    # shellcheck disable=SC2046 # (a word for each job)
    kill $(jobs -rp) 2>/dev/null || true
    wait
    [ -n "${WORK:-}" ] || rm -rf "$work"
}
trap finish EXIT
trap 'exit 130' INT TERM

# user NAME FOLDER: a user of the broker, and the options of its clients
user() {
    local password
    password=$(od -An -v -tx1 -N16 /dev/urandom | tr -d ' ')
    mosquitto_passwd -b "$work/passwords" "$1" "$password" 2>/dev/null
    mkdir -p "$2"
    printf '%s\n' "-h 127.0.0.1" "-p $port" "-u $1" "-P $password" | tee "$2/mosquitto_sub" \
        >"$2/mosquitto_pub"
}

# The folder of each desk and each gateway; a device has a desk by the SHA-256 of its name.
provision() {
    local sum name key number
    mkdir -p "$work/names"
    : >"$work/passwords"
    for ((number = 0; number < desks; number++)); do
        mkdir -p "$work/desk_$number"
        "$desk" found "$work/desk_$number/memory" "desk_$number"
        : >"$work/desk_$number/keys.txt"
        cp "$folder/../sensor/image.hex" "$work/desk_$number/image.hex"
        grep -v '^ask' "$folder/../sensor/policy.txt" >"$work/desk_$number/policy.txt"
        user "$number" "$work/desk_$number/client"
    done
    for ((number = 0; number < gateways; number++)); do
        mkdir -p "$work/gateway-$number/devices"
    done
    user gateway "$work/gateway"
    for ((number = 1; number <= devices; number++)); do
        printf %s "meter_$number" >"$work/names/meter_$number"
    done
    while read -r sum name && read -r key <&3; do
        echo "device $name $key" >>"$work/desk_$((16#${sum:0:8} % desks))/keys.txt"
        echo "$key" >"$work/gateway-$((number % gateways))/devices/$name.txt"
        number=$((number + 1))
    done < <(cd "$work/names" && sha256sum -- *) \
        3< <(od -An -v -tx1 -w64 -N $((64 * devices)) /dev/urandom | tr -d ' ')
}

# start NAME COMMAND..: a job, whose output goes into a log
start() {
    "${@:2}" >"$work/$1.log" 2>&1 &
    jobs+=($!)
}

# runs JOB..: whether one of them has not ended
runs() {
    jobs -rp | grep -qxF "$(printf '%s\n' "$@")"
}

start_broker() {
    {
        cat "$folder/mosquitto.conf"
        printf '%s\n' "listener $port 127.0.0.1" "password_file $work/passwords" \
            "acl_file $folder/acl.txt" "user $(id -un)"
    } >"$work/mosquitto.conf"
    start broker mosquitto -c "$work/mosquitto.conf"
    sleep 1
    if ! runs "${jobs[0]}"; then
        say "the broker does not start; is the port $port taken? PORT=.. names another"
        cat "$work/broker.log" >&2
        exit 1
    fi
}

start_fleet() {
    for ((number = 0; number < desks; number++)); do
        XDG_CONFIG_HOME=$work/desk_$number/client start "desk_$number" \
            "$folder/desk.sh" "$work/desk_$number" "$number" "$desk"
    done
    sleep 1
    for ((number = 0; number < gateways; number++)); do
        XDG_CONFIG_HOME=$work/gateway start "gateway-$number" \
            "$folder/gateway.py" "$work/gateway-$number/devices" "$work/gateway-$number/journal" \
            "$program" "$folder/../sensor/image.hex"
    done
}

# The sum of what the gateways said last, while all desks serve.
tell() {
    for ((number = 0; number < desks; number++)); do
        if ! runs "${jobs[number + 1]}"; then
            say "the desk $number ended: $(cat "$work/desk_$number.log")"
            exit 1
        fi
    done
    tail -qn 1 "$work"/gateway-*.log | awk '
        { for (i = 1; i < NF; i += 2) sum[$i] += $(i + 1) }
        END { print "attested", sum["attested"] + 0, "lines", sum["lines"] + 0,
                    "replies", sum["replies"] + 0, "repeats", sum["repeats"] + 0 }'
}

say "making the keys of $devices devices"
provision
start_broker
start_fleet
while runs "${jobs[@]: -gateways}"; do
    sleep 1
    tell
done
cat "$work"/gateway-*/journal | awk -v devices="$devices" '
    $3 == "verdict" && $6 == "accept" { accepts[$4]++ }
    END { for (name in accepts) full += accepts[name] == 3
          print full + 0, "of", devices, "devices have three accepts"; exit full != devices }'
