# The serial line of power.sh: terminal.sh in | out | back
# /dev/ttyS0 is a pseudo terminal here, with the simulator at port 4030 at its far end. Whenever it comes, it has 9600 baud, an echo, and
# changes CR to LF. `in`: it is there from now on. `out`: it is pulled. `back`: it comes back, and udev sees it come by the installed rule.
set -eu
export LC_ALL=C
device=/dev/ttyS0
case $1 in
    out)
        kill "$(cat /run/bridge.pid)"
        rm -f $device
        ;;
    in | back)
        setsid python3 /try/bridge.py $device 4030 >/dev/null 2>&1 &
        echo $! >/run/bridge.pid
        until [ -e $device ]; do sleep 0.1; done
        stty -F $device sane 9600
        stty -F $device -a | grep -q '^speed 9600 baud'
        stty -F $device -a | grep -q ' icanon .* echo '
        if [ "$1" = back ]; then
            # What udev does by its rules. The kernel's device of this name isn't in the container: only the rules are gone through.
            if [ -d /sys/class/tty/ttyS0 ]; then
                udevadm test --action=add /sys/class/tty/ttyS0 >/run/udev-told 2>&1
                grep -q '90-geocom.rules' /run/udev-told
            else
                /usr/libexec/geocom/set-line $device
            fi
        fi
        # udev gives it to its group only then.
        chgrp dialout "$(readlink -f $device)"
        chmod 660 "$(readlink -f $device)"
        ;;
esac
