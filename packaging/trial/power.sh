# By systemd, at each of four boots: a station at a serial line, as docs/SITE-COMPUTER.md has it. The first three boots end in a power cut:
# all processes are gone at once. After each boot, and when its plug comes back, the terminal has 9600 baud and an echo, and the station
# has to measure again. At the third boot it comes only once the station runs. At the second, all but /var/lib/geocom is read-only.
# /try/boots has how many boots there were. The last boot also tries that without LINE= nothing is measured, and that a line that can't be
# set is refused by its name.
set -eu
export LC_ALL=C
boots=$(($(cat /try/boots) + 1))
echo $boots >/try/boots
unit=geocom-station@cut
rows=/var/lib/geocom/cut.csv
within() { n=0; until "$@"; do n=$((n + 1)); [ $n -lt 60 ] || { echo "boot $boots: not within 60 s: $*"; journalctl -b --no-pager -n 40 -u $unit; tail -n 3 $rows; exit 1; }; sleep 1; done; }
# How often a target was measured in the last run that measured, and how many runs did.
measured() { awk -F, '/,2108,answered,.*,ok,/ { count[$1]++; last = $1 } END { print count[last] + 0 }' $rows; }
runs() { awk -F, '/,2108,answered,.*,ok,/ { print $1 }' $rows | sort -u | wc -l; }
are_measured() { [ "$(runs)" = "$boots" ] && [ "$(measured)" -ge "$1" ]; }
is_set() { stty -F /dev/ttyS0 -a | tr '\n' ' ' | grep -q '^speed 115200 baud;.* -icrnl .* -icanon .* -echo '; }
said() { journalctl -b --no-pager -o cat -u $unit | grep -q -- "$1"; }

[ $boots != 2 ] || ! touch /etc/geocom/cut.conf 2>/dev/null
geocom serve 4030 --keep --idle 600 >/dev/null 2>&1 &
sleep 1
if [ $boots = 1 ]; then
    cp /etc/geocom/simulator.commands /etc/geocom/cut.commands
    printf '%s\n' WHERE=/dev/ttyS0 'LINE=115200 cs8 -cstopb -parenb' 'WORDS=--every 2 --cycles unlimited --retries always --deadline 1000 --settle 300' >/etc/geocom/cut.conf
fi
[ $boots = 3 ] || sh /try/trial/terminal.sh in
systemctl start $unit
if [ $boots = 3 ]; then
    said "/dev/ttyS0 isn't there: its line is set when it comes"
    sleep 3
    sh /try/trial/terminal.sh back
fi
within are_measured 6
is_set
[ $boots = 1 ] || said 'rows were copied'
sh /try/trial/terminal.sh out
sleep 5
before=$(measured)
sh /try/trial/terminal.sh back
within are_measured $((before + 6))
is_set
[ "$(systemctl show -p NRestarts --value $unit)" = 0 ]
echo "boot $boots: measured, after the plug too; $(journalctl -b --no-pager -o cat -u $unit | grep -m 1 ': set' || journalctl -b --no-pager -o cat -t geocom | grep -m 1 ': set')"
if [ $boots -lt 4 ]; then
    systemctl poweroff --force --force
    sleep 60
fi

systemctl stop $unit
sed -i 's/^LINE=.*/LINE=115200 parenb/' /etc/geocom/cut.conf
if systemctl start $unit 2>/dev/null; then exit 1; fi
within said "LINE=115200 parenb: stty -a of /dev/ttyS0 doesn't show parenb afterwards"
systemctl stop $unit
sed -i '/^LINE=/d' /etc/geocom/cut.conf
sh /try/trial/terminal.sh out
sh /try/trial/terminal.sh back
systemctl start $unit
sleep 20
[ "$(runs)" = 4 ]
if is_set; then exit 1; fi
systemctl stop $unit

# What LINE= may say, and by which names udev knows a device.
set_line=/usr/libexec/geocom/set-line
[ "$(WHERE=/dev/ttyS0 LINE='115200 crtscts' $set_line)" = 'geocom: /dev/ttyS0: set 115200 crtscts clocal -icanon -echo -isig -opost -brkint -icrnl -imaxbel' ]
stty -F /dev/ttyS0 min 0
[ "$(WHERE=/dev/ttyS0 LINE=115200 $set_line)" = 'geocom: /dev/ttyS0: set -crtscts min = 1' ]
[ -z "$(WHERE=/dev/ttyS0 LINE=115200 $set_line)" ]
refused() { if why=$(WHERE=$1 LINE=$2 $set_line 2>&1); then echo "$2 is set"; exit 1; fi; echo "$why" | grep -q -- "$3" || { echo "$why"; exit 1; }; }
refused /dev/ttyS0 '115200 echo' 'echo is no speed, nor'
refused /dev/ttyS0 'cs8 -parenb' 'it has no speed'
refused /dev/ttyS0 '115200 *' '\* is no speed, nor'
refused /dev/ttyS0 12345 "doesn't show 12345 afterwards"
refused 4001 115200 'WHERE=4001 is no serial device'
refused /dev/null 115200 'Inappropriate ioctl'
printf '# LINE=9600\nWHERE=/dev/totalstation\nLINE="19200 cs8" \n' >/etc/geocom/cut.conf
$set_line /dev/ttyS0 serial/by-id/usb-A10KZP45-if00-port0
is_set
$set_line /dev/ttyS0 serial/by-id/usb-A10KZP45-if00-port0 totalstation
stty -F /dev/ttyS0 -a | grep -q '^speed 19200 baud'
rm /etc/geocom/cut.* $rows
echo 'without LINE= nothing is measured then; a parity that the terminal has not is refused'
echo 'all cuts done'
