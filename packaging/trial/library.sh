# In the bare root: programs in C and C++, by pkg-config and by CMake, over the shared and the static library.
set -eu
mkdir /tmp/c
cd /tmp/c
tests=/try/tests
same() { "$@" <$tests/worked.steps | cmp - $tests/worked.expected; }
# shellcheck disable=SC2046
{
    gcc -std=c11 -Wall -Wextra -Werror $tests/examples.c $(pkg-config --cflags --libs geocom) -o shared
    gcc -std=c11 -Wall -Wextra -Werror $tests/examples.c $(pkg-config --cflags geocom) "$(pkg-config --variable=libdir geocom)/libgeocom.a" -o static
    g++ -std=c++17 -Wall -Wextra -Werror $tests/examples.cpp $(pkg-config --cflags --libs geocom) -o wrapper
}
ldd shared | grep -q "libgeocom\.so\.2 => /lib/$(gcc -print-multiarch)/libgeocom\.so\.2"
for piece in 4096 1 7; do
    same ./shared $piece 7
    same ./static $piece 7
done
./wrapper >/dev/null
cat >CMakeLists.txt <<'CMAKE'
cmake_minimum_required(VERSION 3.18)
project(trial C)
find_package(geocom 2.0 REQUIRED)
add_executable(one /try/tests/examples.c)
target_link_libraries(one geocom::geocom)
add_executable(two /try/tests/examples.c)
target_link_libraries(two geocom::static)
CMAKE
cmake -S . -B build >told
make -C build >>told
same build/one 7 7
same build/two 7 7
cd /
rm -r /tmp/c
pkg-config --modversion geocom
