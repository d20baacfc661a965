#!/usr/bin/env bash
# Records an evening on a private bus anew: evening.pcap by dbus-monitor and evening.pcapng by busctl, with evening.map and
# evening.policy. Needs root, for the packages and to be several users.
set -euo pipefail
cd "$(dirname "$0")"
work=$(mktemp -d)
chmod 755 "$work"
started=()
finish() {
    [ ${#started[@]} -eq 0 ] || kill "${started[@]}" 2>/dev/null || true
    wait 2>/dev/null || true
    rm -rf "$work"
}
trap finish EXIT

packages="dbus-daemon dbus-bin dbus-tests libglib2.0-bin systemd util-linux"
if ! dpkg --status $packages >/dev/null 2>&1; then
    apt-get update -q
    apt-get install -y -q $packages
fi

sed "s|unix:path=BUS|unix:path=$work/bus|" evening.conf >"$work/bus.conf"
dbus-daemon --config-file="$work/bus.conf" --nofork --nopidfile 2>"$work/log" &
started+=($!)
for _ in $(seq 50); do [ -S "$work/bus" ] && break; sleep 0.1; done
chmod 777 "$work/bus"
export DBUS_SESSION_BUS_ADDRESS="unix:path=$work/bus"

# Each program connects once, so that its unique name is known before it starts.
next=0
map() { # USER [WORD..]: a line of the map for the next program
    echo ":1.$next uid $(id -u "$1") gid $(id -G "$1")${2:+ ${*:2}}" >>"$work/evening.map"
    next=$((next + 1))
}
as() { # USER COMMAND..
    map "$1"
    setpriv --reuid="$1" --regid="$1" --init-groups "${@:2}"
}
service() { # USER KIND NAME: a service that answers every call (echo) or none (black-hole)
    setpriv --reuid="$1" --regid="$1" --init-groups dbus-test-tool "$2" --name="$3" &
    started+=($!)
    sleep 0.3
}
call() { # USER DESTINATION PATH INTERFACE.MEMBER [ARGUMENT..]: a call that awaits its reply
    as "$1" dbus-send --session --print-reply --reply-timeout=500 --dest="$2" "${@:3}" 2>/dev/null || true
}
ask() { # MEMBER NAME: a question to the bus
    call root org.freedesktop.DBus /org/freedesktop/DBus "org.freedesktop.DBus.$1" "string:$2"
}

# The fans are there before. Those who record are no peers.
map games name org.theatre.Fans
service games echo org.theatre.Fans
dbus-monitor --session --pcap >"$work/evening.pcap" &
monitor=$!
sleep 0.3
busctl --address="$DBUS_SESSION_BUS_ADDRESS" --size=1024 capture >"$work/evening.pcapng" 2>/dev/null &
capture=$!
started+=("$monitor" "$capture")
sleep 0.3
next=3

{
    map mail
    service mail black-hole org.theatre.Sensor.Raw
    raw=${started[-1]}
    map mail
    service mail echo org.theatre.Sensor
    ask GetConnectionCredentials org.theatre.Sensor
    ask GetConnectionUnixUser org.theatre.Fans
    ask GetNameOwner org.theatre.Fans

    # The panel may do everything but stop the fans and reach their service interface.
    as daemon gdbus call --session --dest org.theatre.Fans --object-path /org/theatre/Fans --method org.theatre.Fans.SetSpeed 1200
    call daemon :1.0 /org/theatre/Fans org.theatre.Fans.SetSpeed uint32:900
    call daemon org.theatre.Fans /org/theatre/Fans org.theatre.Fans.Stop
    call daemon org.theatre.Fans /org/theatre/Other org.theatre.Fans.Stop
    call daemon org.theatre.Fans /org/theatre/Fans org.theatre.Service.Flash
    call daemon org.theatre.Fans /org/theatre/Cellar org.theatre.Fans.SetSpeed uint32:1
    call daemon org.theatre.Fans /org/theatre/Fans org.theatre.Sensor.Overheat
    # The logger reads the speed and the sensor.
    call news org.theatre.Fans /org/theatre/Fans org.theatre.Fans.GetSpeed
    call news org.theatre.Fans /org/theatre/Fans org.theatre.Fans.SetSpeed uint32:0
    call news org.theatre.Sensor /org/theatre/Sensor org.theatre.Sensor.Read
    call news org.theatre.Sensor.Raw /org/theatre/Sensor org.theatre.Sensor.Read
    call news org.theatre.Nobody /org/theatre/Nobody org.theatre.Nobody.Read
    call news :1.777 /org/theatre/Nobody org.theatre.Nobody.Read
    # Signals, one of them to the fans alone; and a call that busctl does not keep whole.
    as mail gdbus emit --session --object-path /org/theatre/Sensor --signal org.theatre.Sensor.Overheat 'uint32 71'
    as mail gdbus emit --session --dest :1.0 --object-path /org/theatre/Cellar --signal org.theatre.Sensor.Overheat 'uint32 72'
    as daemon dbus-send --session --type=method_call --dest=org.theatre.Sensor /org/theatre/Sensor org.theatre.Sensor.Note \
        "string:$(printf 'warm %.0s' $(seq 250))"
} >/dev/null
kill "$raw"
sleep 0.5

kill "$monitor" "$capture"
wait "$monitor" "$capture" 2>/dev/null || true
cp "$work/evening.pcap" "$work/evening.pcapng" "$work/evening.map" .
../../../tools/busconfig --users evening.users evening.conf >evening.policy
ls -l .
