# By systemd: a relay before and after each run, and a timer that starts runs of one cycle, as docs/SITE-COMPUTER.md prints them. The relay
# starts and ends a simulator, which answers two seconds later. Only the timer is sooner: each 20 s. It takes its own files away.
set -eu
cd /tmp
log=/run/relay.log
unit=geocom-station@north
rows=/var/lib/geocom/north.csv
within() { n=0; until "$@"; do n=$((n + 1)); [ $n -lt 100 ] || { echo "not within 100 s: $*"; cat $log; journalctl --no-pager -n 40 -u $unit; exit 1; }; sleep 1; done; }
# The example of the page that has this word.
printed() { awk -v word="$1" '/^```/ { if (inside && index(text, word)) printf "%s", text; inside = !inside; text = ""; next } { text = text $0 "\n" }' /try/docs/SITE-COMPUTER.md; }
# In how many runs the three targets were measured.
runs() { awk -F, '/,2108,answered,.*,ok,/ { count[$1]++ } END { for (run in count) if (count[run] == 3) runs++; print runs + 0 }' $rows; }
have_measured() { [ -e $rows ] && [ "$(runs)" -ge "$1" ]; }
is_on() { [ "$(tail -n 1 $log | cut -d ' ' -f 2)" = on ]; }
is_off() { [ "$(tail -n 1 $log | cut -d ' ' -f 2)" = off ] && ! systemctl -q is-active instrument; }
is_missed() { grep -q ',missed,' $rows; }

: >$log
cat >/usr/local/bin/relay <<'end'
#!/bin/sh
echo "$(date +%s) $1" >>/run/relay.log
case $1 in
    on) [ -e /run/stays-off ] || systemctl --no-block start instrument ;;
    off) systemctl stop instrument ;;
esac
end
chmod 755 /usr/local/bin/relay
printf '[Service]\nExecStartPre=/bin/sleep 2\nExecStart=/usr/bin/geocom serve 4020 --keep\nType=exec\n' >/run/systemd/system/instrument.service
cp /etc/geocom/simulator.commands /etc/geocom/north.commands
{ echo WHERE=4020; printed '--cycles 1' | sed 's/--every 300/--every 5 --deadline 1000/'; } >/etc/geocom/north.conf
[ "$(wc -l </etc/geocom/north.conf)" = 2 ]
mkdir -p /run/systemd/system/$unit.service.d
printf '[Unit]\nStartLimitBurst=1000\n[Service]\nRestartSec=3\n' >/run/systemd/system/$unit.service.d/sooner.conf
printed power.conf | sh -eu
printed OnCalendar= | sed 's|^OnCalendar=.*|OnCalendar=*:*:0/20|' | sh -eu

within have_measured 3
within is_off
awk '$2 == last { exit 1 } $2 == "off" && $1 - on > 15 { exit 1 } $2 == "on" { if (on && ($1 - on < 10 || $1 - on > 30)) exit 1; on = $1 } { last = $2 }' $log
echo "the relay was switched on each 20 s, and off after $(awk '$2 == "on" { on = $1 } $2 == "off" && $1 - on > most { most = $1 - on } END { print most }' $log) s at most: $(runs) runs, each with its cycle"

within is_on
within systemctl -q is-active $unit
systemctl kill -s KILL $unit
within is_off
journalctl --no-pager -o cat -u $unit | grep -q 'code=killed, status=9/KILL'
within have_measured 4
echo 'off after a kill'

touch /run/stays-off
within is_missed
within is_off
[ "$(systemctl show -p Result --value $unit)" = success ]
awk '$2 == "on" { on = $1 } $2 == "off" && $1 - on > 20 { exit 1 }' $log
rm /run/stays-off
echo 'off after an instrument that stays off, whose rows are missed'

systemctl stop $unit.timer $unit
echo '7 nothing' >>/etc/geocom/north.commands
: >$log
if systemctl start $unit 2>/dev/null; then exit 1; fi
systemctl stop $unit
[ "$(cut -d ' ' -f 2 $log | sort -u)" = off ]
echo 'not on, and off, where the commands are faulty'

systemctl disable --now $unit.timer 2>/dev/null
systemctl reset-failed $unit 2>/dev/null || true
rm -r /etc/geocom/north.* $rows $log /usr/local/bin/relay /etc/systemd/system/$unit.timer /etc/systemd/system/$unit.service.d \
    /run/systemd/system/$unit.service.d /run/systemd/system/instrument.service
systemctl daemon-reload
