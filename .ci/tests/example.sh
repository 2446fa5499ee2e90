# The example in C builds against the proved archive and writes what its README shows.
set -e
mkdir -p target
(cd crates/abi && rt lib) >target/archive.log 2>&1 || { tail -n 40 target/archive.log; exit 1; }
gcc -std=c99 -Wall -Wextra -Werror examples/points.c -Iinclude -Lcrates/abi/out -labi -o target/points
target/points >target/points.out
sed -n 's/^    \(place .*\)/\1/p' examples/README.md | diff - target/points.out
