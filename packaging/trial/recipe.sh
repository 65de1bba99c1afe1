# By systemd: each of these reaches a person by what docs/INTEGRATION.md, "Who notices", prints: an instrument that is off, a line that is
# dead, prisms that are gone, a disk that is full, a station that is stopped (SIGSTOP), a clock that is wrong, and one that isn't set. Each
# is a site of its own, and all are tried side by side. A device that another program holds for a while is waited for.
#
# All is sooner than at a site: periods of 2 s, a look each 5 s, and restarts after 3 s. `mail` is a stand-in, which keeps what is sent.
set -eu
cd /tmp
# What stands still would hold up the machine's end.
trap 'kill -CONT ${pid_off:-} ${stopped:-} 2>/dev/null || true' EXIT
sites='off dead gone full stopped'
within() { n=0; until "$@"; do n=$((n + 1)); [ $n -lt 120 ] || { echo "not within 120 s: $*"; tail -n 40 /run/mails /var/lib/geocom/alarm/*; exit 1; }; sleep 1; done; }
# Somebody was called for a unit, and was told so.
is_called() { grep -qx "$1.service failed" /run/called && grep -q -- "$2" "/run/mail.$1.service"; }
is_alarmed() { grep -q -- "$2" "/var/lib/geocom/alarm/$1.told" 2>/dev/null; }
is_measured() { tail -n 9 "/var/lib/geocom/$1.csv" 2>/dev/null | grep -q '2108,answered.*,ok,'; }
restarts() { systemctl show -p NRestarts --value geocom-station@$1; }
is_started_again() { [ "$(restarts "$1")" -ge 1 ]; }
is_well() { systemctl start "geocom-alive@$1" 2>/dev/null; }
call() {
    within is_called "geocom-alive@$1" "$2"
    echo "called for $1 within $(($(date +%s) - begun)) s: $(grep -o -m 1 '\(WARNING\|CRITICAL\|UNKNOWN\): .*' "/run/mail.geocom-alive@$1.service" | sed 's/ |.*//; s/[0-9]\{1,\} s/N s/g')"
}
serve() { geocom serve "$@" >/dev/null 2>&1 & served=$!; }
sooner() { mkdir -p "/run/systemd/system/$1.d"; printf '%s\n' "$2" "$3" "$4" "$5" >"/run/systemd/system/$1.d/sooner.conf"; }
: >/run/called
cat >/usr/local/bin/mail <<'end'
#!/bin/sh
echo "$2" >>/run/called
cat >"/run/mail.${2% failed}"
end
# As the page prints it.
cat > /etc/geocom/failed << 'end'
#!/bin/sh
journalctl --no-pager --lines 40 --unit "$1" | mail -s "$1 failed" you@example.org
end
chmod 755 /usr/local/bin/mail /etc/geocom/failed
sooner geocom-station@.service '[Service]' RestartSec=3 '' ''
sooner geocom-alive@.timer '[Timer]' OnActiveSec= OnActiveSec=5 OnUnitInactiveSec=5
# Where a service waits for a clock that is set, as systemd-time-wait-sync does, which doesn't run in a container.
printf '[Unit]\nBefore=time-sync.target\nWants=time-sync.target\n[Service]\nType=oneshot\nTimeoutStartSec=infinity\nExecStart=/bin/sleep 1000\n' \
    >/run/systemd/system/waits-for-a-clock.service
mkdir -p /var/lib/geocom/small
mount -t tmpfs -o size=64k,uid=geocom,gid=geocom none /var/lib/geocom/small
systemctl daemon-reload
port=4010
for each in $sites held waits; do
    port=$((port + 1))
    serve $port --keep --idle 600
    eval "port_$each=$port pid_$each=$served"
    sed 's/^deadline .*/deadline 500/' /etc/geocom/simulator.commands >/etc/geocom/$each.commands
    printf 'WHERE=%s\nWORDS=--every 2 --cycles unlimited --retries always --deadline 500 --settle 200\n' $port >/etc/geocom/$each.conf
    printf 'FILE=/var/lib/geocom/%s.csv\nWORDS=--within 12\n' $each >/etc/geocom/$each.alive
    printf 'FILE=/var/lib/geocom/%s.csv\nLIMITS=/etc/geocom/limits\nRUN=cat >>/var/lib/geocom/alarm/%s.told\nWORDS=--apart 1\n' $each $each >/etc/geocom/$each.alarm
done
printf 'target,column,reference,tolerance,outside,of\n*,silence,,,,12s\n' >/etc/geocom/limits
echo FILE=small/full.csv >>/etc/geocom/full.conf
sed -i 's|geocom/full.csv|geocom/small/full.csv|' /etc/geocom/full.alive /etc/geocom/full.alarm
ln -s small/full.csv /var/lib/geocom/full.csv

# A station that waits for a clock that is set: its check doesn't wait.
systemctl start --no-block waits-for-a-clock
systemctl start --no-block geocom-station@waits
systemctl start geocom-alive@waits.timer
begun=$(date +%s)
call waits "CRITICAL: /var/lib/geocom/waits.csv isn't there"
[ "$(systemctl show -p ActiveState --value geocom-station@waits)" = inactive ]
[ ! -e /var/lib/geocom/waits.csv ]
systemctl stop geocom-alive@waits.timer waits-for-a-clock
within is_measured waits
: >/run/called

# A device that another program holds from the boot on, for some tries of the station's.
python3 /try/bridge.py /run/held "$port_held" &
within test -e /run/held
chgrp dialout "$(readlink -f /run/held)" && chmod 660 "$(readlink -f /run/held)"
sed -i 's|^WHERE=.*|WHERE=/run/held|' /etc/geocom/held.conf
flock --no-fork /run/held sleep 1000 &
holder=$!
systemctl start --no-block geocom-station@held
within is_started_again held
kill "$holder"

for each in $sites; do systemctl start geocom-station@$each; done
for each in $sites; do within is_measured $each; done
for each in $sites; do systemctl start geocom-alive@$each.timer geocom-alarm@$each; done
sleep 12
[ ! -s /run/called ] || { cat /run/called /run/mail.*; exit 1; }
echo 'nobody is called while all is well'

begun=$(date +%s)
kill -STOP "$pid_off"
kill "$pid_dead"
kill "$pid_gone"
sleep 1
: >/tmp/nothing
serve "$port_gone" --keep --idle 600 --scene /tmp/nothing
pid_gone=$served
dd if=/dev/zero of=/var/lib/geocom/small/other bs=1k 2>/dev/null || true
stopped=$(systemctl show -p MainPID --value geocom-station@stopped)
kill -STOP "$stopped"
# A file of rows whose last one is an hour ahead of the clock, and no station.
python3 -c "import datetime, re, sys
hour = datetime.timedelta(hours=1)
print(re.sub(r'(\d{4}-\d\d-\d\dT\d\d:\d\d:\d\d)\.(\d{3})Z', lambda m: (datetime.datetime.fromisoformat(m[1]) + hour).isoformat() + '.' + m[2] + 'Z', sys.stdin.read()), end='')" \
    </var/lib/geocom/off.csv >/var/lib/geocom/clock.csv
printf 'FILE=/var/lib/geocom/clock.csv\nWORDS=--within 12\n' >/etc/geocom/clock.alive
systemctl start geocom-alive@clock.timer

call clock 'UNKNOWN: the clock is'
for each in $sites; do call $each 'not measured within 12 s\|no row for'; done
within is_called geocom-station@full 'No space left on device'
echo "called for the run that ends on a full disk within $(($(date +%s) - begun)) s"
for each in $sites; do within is_alarmed $each 'station: no good row for 12 s'; done
echo 'five alarms'

# All is well again, as after an hour: the stations go on by themselves, but that of the full disk, which a person starts again.
kill -CONT "$pid_off" "$stopped"
serve "$port_dead" --keep --idle 600
kill "$pid_gone"
sleep 1
serve "$port_gone" --keep --idle 600
rm /var/lib/geocom/small/other
systemctl reset-failed geocom-station@full
systemctl start geocom-station@full
for each in $sites held; do within is_measured $each; done
for each in $sites; do within is_well $each; done
for each in $sites; do within is_alarmed $each 'a good row again; all is well'; done
for each in off dead gone stopped; do [ "$(restarts $each)" = 0 ] || { echo "geocom-station@$each was started again $(restarts $each) times"; exit 1; }; done
[ "$(restarts held)" -ge 1 ] || { echo 'the device was not held'; exit 1; }
if grep -v 'geocom-alive@\|geocom-station@full' /run/called; then exit 1; fi
echo "all is well again; a device that was held is measured at, after $(restarts held) restarts"

systemctl stop 'geocom-alive@*.timer' 'geocom-failed@*' 'geocom-alarm@*' 'geocom-station@*'
systemctl reset-failed 'geocom-*'
# A unit that is just stopped may still have it.
umount --lazy /var/lib/geocom/small
for each in $sites held waits clock; do rm -f /etc/geocom/$each.* /var/lib/geocom/$each.*; done
rm -rf /var/lib/geocom/small /var/lib/geocom/alarm /run/called /run/mail.* /run/held /usr/local/bin/mail /etc/geocom/failed /etc/geocom/limits /tmp/nothing \
    /run/systemd/system/waits-for-a-clock.service /run/systemd/system/geocom-station@.service.d /run/systemd/system/geocom-alive@.timer.d
systemctl daemon-reload
