# The C archive is proved and built, over libraries that assume no axiom and no function of another language: a verdict names any.
set -e
mkdir -p target
(cd crates/abi && rt lib) >target/archive.log 2>&1 || { tail -n 40 target/archive.log; exit 1; }
[ -f crates/abi/out/libabi.a ]
for crate in crates/*/; do
    name=$(basename "$crate")
    [ -f "$crate/src/lib.rt" ] || continue
    (cd "$crate" && rt check) >target/library.log 2>&1 || { tail -n 40 target/library.log; exit 1; }
    verdicts=$(grep -E '^logic=' target/library.log) || { echo "$name has no verdict"; exit 1; }
    printf '%s\n' "$verdicts" | while read -r verdict; do
        case $verdict in
        *axioms=* | *foreign=*) echo "$name: $verdict"; exit 1 ;;
        'logic=proved '*) ;;
        *) echo "$name has no verdict: $verdict"; exit 1 ;;
        esac
    done
done
