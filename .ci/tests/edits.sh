# An edit that must be refused is refused because a fact no longer holds, and not because the proof speaks of something that the edit removed: rt ci tells
# for each the first thing that is wrong, in the log that .ci/run keeps.
set -e
unfit=0
for edit in crates/*/must-fail/*.edit; do
    crate=$(basename "${edit%/must-fail/*}")
    line=$(grep -F "must-fail $crate/$(basename "$edit"):" target/ci.log || true)
    case $line in
    '') echo "no word on $edit"; unfit=1 ;;
    *'refused, as it must be (only '* | *'that can be named from here'* | *'has no field'* | *'is not in scope'*) echo "$line"; unfit=1 ;;
    *': refused, as it must be'*) ;;
    *) echo "$line"; unfit=1 ;;
    esac
done
exit "$unfit"
