# In the bare root: the two commands by which the README installs the program and tries it, as they are printed there.
set -eu
cd /try
install=$(grep -m 1 '^apt install ' README.md)
sh -c "$install"
try=$(sed -n 's/^\$ \(printf .* | geocom loop\)$/\1/p' README.md)
[ -n "$try" ]
awk 'was_command { print; exit } /^\$ printf .* \| geocom loop$/ { was_command = 1 }' README.md >/tmp/wanted
sh -c "$try" >/tmp/printed
cmp /tmp/printed /tmp/wanted
rm /tmp/printed /tmp/wanted
printf "%s\n" "$install; $try"
