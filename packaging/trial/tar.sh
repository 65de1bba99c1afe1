# In the bare root: the tar has the same program and library as the packages, and its library is found where it was unpacked.
set -eu
mkdir /tmp/tar
tar -C /tmp/tar --strip-components=1 -xzf /try/geocom-*.tar.gz
cd /tmp/tar
cmp bin/geocom /usr/bin/geocom
cmp lib/libgeocom.so.2 "/usr/lib/$(gcc -print-multiarch)/libgeocom.so.2"
bin/geocom --version
# shellcheck disable=SC2046
gcc /try/tests/examples.c $(PKG_CONFIG_PATH=lib/pkgconfig pkg-config --define-prefix --cflags --libs geocom) -Wl,-rpath,/tmp/tar/lib -o one
./one 7 7 </try/tests/worked.steps | cmp - /try/tests/worked.expected
rm -r /tmp/tar
