# Installs below a folder of its own, and builds the example as a user would. try-installed.sh BUILD LIBRARY VERSION
set -eu
build=$1 library=$2 version=$3
root=$(cd "$build" && pwd)/installed
rm -rf "$root"
make -s install prefix="$root" LIBRARY="$library"
cmp "$library" "$root/lib/libgumreta.a"
if command -v pkg-config > /dev/null; then
    export PKG_CONFIG_PATH="$root/lib/pkgconfig"
    [ "$(pkg-config --modversion gumreta)" = "$version" ]
    flags=$(pkg-config --cflags --libs gumreta)
else
    flags="-I$root/include -L$root/lib -lgumreta"
fi
cp example.c "$root"
# shellcheck disable=SC2086
${CC:-cc} -o "$root/example" "$root/example.c" $flags
"$root/example" ../examples/reverse.job > "$root/said"
grep -q '^finished after 1859 steps$' "$root/said"
make -s uninstall prefix="$root"
[ ! -e "$root/lib/libgumreta.a" ] && [ ! -e "$root/include/gumreta.h" ]
echo "installed, linked by its flags, taken away"
