# In the bare root: five prisms of a simulated instrument are taught, the fourth and the fifth by another run, and a station measures what
# was taught: each row is answered, where its prism is.
set -eu
cd "$(mktemp -d)"
cat >site.scene <<end
target 2.25 1.625 110.0625
target 0.5 1.5 25.125
target 4.0 1.5 48.5
target 0.0 1.57 80.25
target 5.5 1.25 33.75
noise 0.00001 0.00001 0.0005 7
behave real
end
geocom serve 4011 --keep --scene site.scene &
served=$!
sleep 1
printf '%s\n' 'pier 4' '143.2 103.5' rock '30 90' '31 95' 'dam crest' '254.5 95.4' | geocom-teach 4011 north.commands
printf '%s\n' zero '0.5 100' high '350 79.5' | geocom-teach 4011 north.commands
geocom station 4011 --check <north.commands >checked 2>found
[ ! -s found ]
geocom station 4011 --csv --cycles 2 <north.commands 2>messages >rows.csv
kill "$served"
grep '^answered' messages
grep -Eq '^answered 40 \(refused 0\)( [a-z_]+ 0)+$' messages
