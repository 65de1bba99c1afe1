# By systemd: who is called where a station fails or is silent, and what begins again. `geocom serve 4001` runs, and no station.
# Commands and words that can't run, a station that hangs, and a file that is too old. It takes its own files away.
set -eu
called=/run/called
within() { n=0; until "$@"; do n=$((n + 1)); [ $n -lt 120 ] || { echo "not within 120 s: $*"; exit 1; }; sleep 1; done; }
is_called() { grep -qx "$1" $called; }
pid_of() { systemctl show -p MainPID --value "$1"; }
is_again() { [ "$(pid_of geocom-station@hangs)" != "$1" ] && [ "$(pid_of geocom-station@hangs)" != 0 ]; }
: >$called
printf '#!/bin/sh\necho "$1" >>%s\n' $called >/etc/geocom/failed
chmod 755 /etc/geocom/failed
for each in faulty words hangs; do
    cp /etc/geocom/simulator.commands /etc/geocom/$each.commands
    cp /etc/geocom/simulator.conf /etc/geocom/$each.conf
done
echo '7 nothing' >/etc/geocom/faulty.commands
sed -i 's/^WORDS=/&--width never /' /etc/geocom/words.conf
# What the unit's own watchdog of a minute does, sooner.
echo 'WITHIN=30' >>/etc/geocom/hangs.conf
mkdir -p /run/systemd/system/geocom-station@hangs.service.d
printf '[Service]\nWatchdogSec=15\nEnvironment=WATCHDOG_USEC=15000000\n' >/run/systemd/system/geocom-station@hangs.service.d/sooner.conf
systemctl daemon-reload
systemctl start geocom-station@faulty geocom-station@words 2>/dev/null || true
systemctl start geocom-station@hangs
within test -s /var/lib/geocom/hangs.csv
systemctl show -p StatusText --value geocom-station@hangs | cut -c 1-7
printf 'FILE=/var/lib/geocom/hangs.csv\nWORDS=--within 60\n' >/etc/geocom/hangs.alive
within systemctl start geocom-alive@hangs 2>/dev/null
pid=$(pid_of geocom-station@hangs)
kill -STOP "$pid"
within is_again "$pid"
echo 'a station that hung began again'
systemctl stop geocom-station@hangs
sleep 2
sed -i 's/60/1/' /etc/geocom/hangs.alive
systemctl start geocom-alive@hangs 2>/dev/null && exit 1
for each in geocom-station@faulty geocom-station@words geocom-alive@hangs; do within is_called $each.service; done
if is_called geocom-station@hangs.service; then exit 1; fi
echo "called for: $(sort -u $called | tr '\n' ' ')"
systemctl stop 'geocom-failed@*' geocom-station@faulty geocom-station@words
systemctl reset-failed 'geocom-*'
rm -r /run/systemd/system/geocom-station@hangs.service.d $called /etc/geocom/failed /etc/geocom/faulty.* /etc/geocom/words.* /etc/geocom/hangs.* /var/lib/geocom/hangs.*
systemctl daemon-reload
