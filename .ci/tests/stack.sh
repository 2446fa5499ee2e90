# No call takes more stack than docs/PERFORMANCE.md says, by more than 200 bytes: less than the smallest array.
set -e
mkdir -p target
(cd crates/abi && rt lib) >target/archive.log 2>&1 || { tail -n 40 target/archive.log; exit 1; }
gcc -std=gnu99 -O2 -Wall -Wextra -Werror tools/stack.c -Iinclude -Lcrates/abi/out -labi -o target/stack
target/stack >target/stack.out
sed -n '/^## Stack/,/^## [^S]/ s/^| \([^|]*\) | [^|]* | \([0-9,]*\) |$/\1: \2/p' docs/PERFORMANCE.md | tr -d , |
    awk -F ': ' 'NR == FNR { said[$1] = $2; next }
        { seen[$1] = 1 }
        !($1 in said) { print $1 " has no row"; bad = 1; next }
        $2 > said[$1] + 200 { print $1 " takes " $2 " bytes, not " said[$1]; bad = 1 }
        END { for (name in said) if (!(name in seen)) { print name " was not measured"; bad = 1 }; exit bad }' - target/stack.out
