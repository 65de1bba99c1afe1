# By systemd: what an operator does behind the page, with two instruments: operator.sh SECONDS
# The second one stands at a serial line, which is a pseudo terminal, and its rows are objects of JSON. A follower, a reduction and an
# alarm run beside them. Then relay.sh switches a relay, and silence.sh and recipe.sh look who is called. At the end the packages are
# removed while a station and a follower run.
set -eu
set -- "$1" geocom-station@simulator geocom-station@line
rm -f /var/lib/geocom/*.csv /var/lib/geocom/*.jsonl
geocom serve 4001 --keep &
geocom serve 4002 --keep --idle 600 &
sleep 1
python3 /try/bridge.py /run/line 4002 &
until [ -e /run/line ]; do sleep 0.2; done
chgrp dialout "$(readlink -f /run/line)"
chmod 660 "$(readlink -f /run/line)"
cp /etc/geocom/simulator.commands /etc/geocom/line.commands
{
    sed 's|^WHERE=.*|WHERE=/run/line|; s|^WORDS=|&--json |' /etc/geocom/simulator.conf
    echo FILE=line.jsonl
} >/etc/geocom/line.conf
# Sooner than the unit's minute.
mkdir -p /run/systemd/system/geocom-station@.service.d
printf '[Service]\nRestartSec=5\n' >/run/systemd/system/geocom-station@.service.d/sooner.conf
systemctl daemon-reload
systemctl enable --now "$2"
systemctl start "$3"
cp /usr/share/doc/geocom-tools/examples/to-sqlite.conf /etc/geocom
printf 'station 0 0 0\norientation 0\n' >/etc/geocom/simulator.site
printf 'FILE=/var/lib/geocom/simulator.csv\nSITE=/etc/geocom/simulator.site\n' >/etc/geocom/simulator.reduce
printf 'target,column,reference,tolerance,outside,of\n2,distance_m,110,0.01,2,2\n' >/etc/geocom/simulator.limits
printf 'FILE=/var/lib/geocom/simulator.csv\nLIMITS=/etc/geocom/simulator.limits\nRUN=cat >>/var/lib/geocom/alarm/told\nWORDS=--apart 1\n' \
    >/etc/geocom/simulator.alarm
systemctl start geocom-to-sqlite geocom-reduce@simulator geocom-alarm@simulator
sleep "$1"
systemctl kill -s KILL "$2"
sleep 10
systemctl is-active "$2" "$3" geocom-to-sqlite geocom-reduce@simulator geocom-alarm@simulator
python3 -c "import sqlite3
for row in sqlite3.connect('/var/lib/geocom/values.db').execute('SELECT source, count(*) > 20 FROM record GROUP BY source ORDER BY source'): print(*row)"
head -n 1 /var/lib/geocom/alarm/told | cut -d ' ' -f 2-
[ "$(wc -l </var/lib/geocom/alarm/told)" = "$(journalctl --no-pager -o cat -u geocom-alarm@simulator | grep -c 'target 2')" ]
head -n 1 /var/lib/geocom/reduced/simulator.csv | cut -d , -f 14-16
# The pages of both stations, by their unit.
systemctl start geocom-page
for _ in 1 2 3 4 5 6 7 8 9 10; do [ -s /var/lib/geocom/page/index.html ] || sleep 1; done
grep -o 'href="station-[a-z]*.html"' /var/lib/geocom/page/index.html | sort
grep -c 'answered well' /var/lib/geocom/page/station-simulator.html /var/lib/geocom/page/station-line.html
systemctl is-active geocom-page
systemctl stop geocom-page
rm -r /var/lib/geocom/page
systemctl stop geocom-reduce@simulator geocom-alarm@simulator
systemctl show -p User,NRestarts,NoNewPrivileges,CapabilityBoundingSet "$2"
systemctl stop "$2" "$3"
journalctl --no-pager -o cat -u "$2" -u "$3" | grep -v 'Sending signal\|Sent signal'
stat -c '%U %A %n' /var/lib/geocom /var/lib/geocom/*.*
rm -r /etc/geocom/line.* /etc/geocom/simulator.site /etc/geocom/simulator.reduce /etc/geocom/simulator.limits /etc/geocom/simulator.alarm \
    /var/lib/geocom/alarm /var/lib/geocom/reduced
cp /var/lib/geocom/simulator.csv /var/lib/geocom/line.jsonl /try
sh /try/trial/relay.sh
sh /try/trial/silence.sh
sh /try/trial/recipe.sh
systemctl start "$2"
dpkg --purge geocom geocom-tools
if systemctl is-active "$2" geocom-to-sqlite; then exit 1; fi
rm /var/lib/geocom/values.db* /etc/geocom/to-sqlite.conf
[ -z "$(find /etc/systemd/system -type l -name 'geocom*')" ]
echo 'all steps done'
