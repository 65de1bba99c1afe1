#!/bin/bash
# A station over PPP, whose line alters bytes: ppp.sh PROGRAM FOLDER SHARE SEED STATION'S-WORDS..
#
# Both ends of PPP are in a Linux of its own, Debian's user-mode-linux, since few test machines have PPP in their kernels: this script is its
# init, too. They are in two network namespaces of it, with the altering line (pipe_altered.py) between them. At the far end is a bridge to a
# serial line, at whose other end the simulator is. The station is outside, and reaches the bridge through the near end. FOLDER has the
# commands, and gets the rows. It wants root, or a /dev/net/tun that anybody may open.

# As docs/FIRST-CYCLE.md has it: it returns once PPP is up.
pppd_at() {
    pppd "$1" 19200 updetach local noauth persist maxfail 0 lcp-echo-interval 10 lcp-echo-failure 3 "$2"
}

inside() {
    export PATH=/usr/sbin:/usr/bin:/sbin:/bin
    mount -t proc proc /proc
    eval "$(tr ' ' '\n' < /proc/cmdline | grep -E '^(FOLDER|SHARE|SEED)=')"
    mount -t hostfs -o "$FOLDER" none /mnt
    mount -t tmpfs none /run
    mkdir -p /dev/pts /run/lock
    mount -t devpts none /dev/pts
    exec > /mnt/inside 2>&1
    for name in slhc crc-ccitt ppp_generic ppp_async; do
        insmod "$(find /usr/lib/uml/modules -name "$name.ko" | head -n 1)"
    done
    ip link set lo up
    ip addr add 10.8.0.2/24 dev vec0
    ip link set vec0 up
    echo 1 > /proc/sys/net/ipv4/ip_forward
    ip netns add far
    /usr/bin/python3 "${0%/*}/pipe_altered.py" "$SHARE" "$SEED" /run/near /run/far > /mnt/altered &
    pipe=$!
    until [ -e /run/far ]; do sleep 0.1; done
    pppd_at /run/near 10.9.0.1:10.9.0.2 &
    export -f pppd_at
    ip netns exec far bash -c 'pppd_at /run/far 10.9.0.2:10.9.0.1'
    ip netns exec far ip route add default dev ppp0
    ip netns exec far socat TCP-LISTEN:4002,bind=10.9.0.2,reuseaddr,fork,max-children=1 OPEN:/dev/ttyS0,raw,echo=0,b19200,cs8,parenb=0,cstopb=0 &
    touch /mnt/up
    until [ -e /mnt/stop ]; do sleep 0.5; done
    kill "$pipe"
    wait "$pipe"
    echo o > /proc/sysrq-trigger
    sleep 9
}

outside() {
    program=$1 folder=$2 share=$3 seed=$4
    shift 4
    ip link set lo up
    ip tuntap add dev tap0 mode tap
    ip addr add 10.8.0.1/24 dev tap0
    ip link set tap0 up
    ip route add 10.9.0.2 via 10.8.0.2
    socat "pty,raw,echo=0,link=$folder/line" "pty,raw,echo=0,link=$folder/far" &
    until [ -e "$folder/line" ] && [ -e "$folder/far" ]; do sleep 0.1; done
    "$program" serve "$folder/far" --keep &
    linux.uml root=/dev/root rootfstype=hostfs rootflags=/ ro mem=128M init="$(realpath "$0")" con=null con1=null quiet ssl0="tty:$folder/line" \
        vec0:transport=tap,ifname=tap0,depth=64 FOLDER="$folder" SHARE="$share" SEED="$seed" < /dev/null > "$folder/console" 2>&1 &
    uml=$!
    for _ in {1..300}; do [ -e "$folder/up" ] || sleep 0.1; done
    "$program" station 10.9.0.2:4002 --csv "$@" < "$folder/commands" > "$folder/rows"
    status=$?
    touch "$folder/stop"
    wait "$uml"
    # The simulator and the serial line.
    kill $(jobs -p)
    return "$status"
}

if [ $$ = 1 ]; then inside; else outside "$@"; fi
