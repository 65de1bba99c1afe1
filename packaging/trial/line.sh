# In the bare root, where no systemd runs: a station by the unit's own command line, beside `serve`: line.sh SECONDS
set -eu
install -d -o geocom -g geocom /var/lib/geocom
setpriv --reuid nobody --regid nogroup --clear-groups geocom serve 4001 --keep &
python3 /try/unit_line.py /usr/lib/systemd/system/geocom-station@.service simulator >/tmp/line
status=0
timeout "$1" sh /tmp/line || status=$?
rm /tmp/line
# It was ended by the time that it had.
[ $status -eq 124 ]
