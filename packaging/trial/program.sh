# In the bare root: the program, its first example, and its pages.
set -eu
geocom --version
cd /usr/share/doc/geocom/examples
geocom exec <two.requests | cmp - two.replies
geocom exec <measure.requests | cmp - measure.replies
mandb -q
for page in '1 geocom' '1 geocom-station' '5 geocom-schedule'; do
    # shellcheck disable=SC2086
    man $page >/tmp/page
    grep -q '^EXAMPLES' /tmp/page
done
rm /tmp/page
grep -q '^## Premises' ../GUARANTEE.md
man -f geocom >/dev/null
