# In the bare root: a station over a simulated instrument whose clock is set on from day to day: dates.sh CHANGES
set -eu
cd /try/dates
PYTHONDONTWRITEBYTECODE=1 python3 dates.py /usr/bin/geocom "$1"
