#!/usr/bin/env bash
# Rebuilds the corpus of recorded messages. Needs root for the packages (or have them
# installed) and writes tests/corpus/messages and tests/corpus/VERSIONS.
set -euo pipefail
cd "$(dirname "$0")"
corpus=$(cd .. && pwd)
work=$(mktemp -d)
trap 'rm -rf "$work"' EXIT

packages="libdbus-1-dev libglib2.0-dev libsystemd-dev pkg-config dbus dbus-bin dbus-daemon libglib2.0-bin"
if ! dpkg --status $packages >/dev/null 2>&1; then
    apt-get update -q
    apt-get install -y -q $packages
fi

build() { # SOURCE PKG-CONFIG-PACKAGE...
    local source=$1
    shift
    local flags=""
    if [ $# -gt 0 ]; then flags=$(pkg-config --cflags --libs "$@"); fi
    gcc -Wall -Wextra -Werror -O1 "$source.c" -o "$work/$source" $flags
}

fresh_folder() {
    rm -rf "$corpus/messages/$1"
    mkdir -p "$corpus/messages/$1"
}

build libdbus dbus-1
build glib gio-2.0 gio-unix-2.0
build sdbus libsystemd
build split
for library in libdbus glib sdbus; do
    fresh_folder "$library"
    "$work/$library" "$corpus/messages/$library" >/dev/null
done

# Real programs on a private bus, as the bus's own monitor sees them.
fresh_folder session
cat >"$work/session.conf" <<CONF
<busconfig>
  <type>session</type>
  <listen>unix:path=$work/bus</listen>
  <policy context="default">
    <allow send_destination="*" eavesdrop="true"/>
    <allow eavesdrop="true"/>
    <allow own="*"/>
  </policy>
</busconfig>
CONF
dbus-daemon --config-file="$work/session.conf" --nofork --nopidfile &
daemon=$!
for _ in $(seq 50); do [ -S "$work/bus" ] && break; sleep 0.1; done
export DBUS_SESSION_BUS_ADDRESS="unix:path=$work/bus"
dbus-monitor --session --binary >"$work/stream" &
monitor=$!
sleep 0.5
bus=(--session --dest org.freedesktop.DBus --object-path /org/freedesktop/DBus)
gdbus introspect "${bus[@]}" >/dev/null
gdbus call "${bus[@]}" --method org.freedesktop.DBus.ListNames >/dev/null
gdbus call "${bus[@]}" --method org.freedesktop.DBus.GetConnectionCredentials org.freedesktop.DBus >/dev/null
gdbus call "${bus[@]}" --method org.freedesktop.DBus.NoSuchMethod >/dev/null 2>&1 || true
gdbus emit --session --object-path /org/theatre/Fans --signal org.theatre.Fans.Overheat "uint32 71" "{'zone': <'stage'>}"
send=(dbus-send --session --dest=org.freedesktop.DBus /org/freedesktop/DBus)
"${send[@]}" org.freedesktop.DBus.AddMatch string:"type='signal',interface='org.theatre.Fans'"
"${send[@]}" --print-reply org.freedesktop.DBus.RequestName string:org.theatre.Fans uint32:4 >/dev/null
"${send[@]}" --print-reply org.freedesktop.DBus.GetNameOwner string:org.nobody >/dev/null 2>&1 || true
dbus-send --session --type=signal /org/theatre/Panel org.theatre.Panel.Pressed \
    byte:7 boolean:true double:1.5 array:string:a,b,c dict:string:int32:x,1,y,2 variant:objpath:/a
sleep 0.5
kill "$monitor" "$daemon"
wait "$monitor" "$daemon" 2>/dev/null || true
"$work/split" "$work/stream" "$corpus/messages/session"

{
    for package in libdbus-1-3 libglib2.0-0 libsystemd0 dbus-daemon dbus-bin libglib2.0-bin; do
        dpkg-query --show --showformat='${Package} ${Version}\n' "$package"
    done
    echo "architecture $(dpkg --print-architecture)"
} >"$corpus/VERSIONS"
echo "$(find "$corpus/messages" -name '*.msg' | wc -l) messages, $(du -sb "$corpus/messages" | cut -f1) bytes"
