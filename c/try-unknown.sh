# The example over an archive that answers numbers which its header does not know: each is an error, wherever it comes. try-unknown.sh BUILD NUMBER ..
set -eu
build=$1
shift
for number in "$@"; do
    for at in annotate check run; do
        status=0
        AT=$at "$build/unknown-$number/example" ../examples/reverse.job > "$build/said" 2>&1 || status=$?
        if [ "$status" -ne 1 ] || ! grep -q "^unknown answer $number: " "$build/said" || grep -q finished "$build/said"; then
            echo "an unknown $number from $at: status $status, and it said:"
            cat "$build/said"
            exit 1
        fi
    done
done
echo "unknown answers $* are errors"
