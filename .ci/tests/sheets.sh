# Every sheet in sheets/ gets the answer that stands beside it, and the README's sheet is the first of them.
set -e
mkdir -p target
(cd crates/job_sheet && rt run <stdin) >target/job_sheet.log 2>&1 || { tail -n 40 target/job_sheet.log; exit 1; }
for sheet in sheets/*.sheet; do
    crates/job_sheet/out/job_sheet <"$sheet" >target/sheet.out
    diff "${sheet%.sheet}.answer" target/sheet.out || { echo "$sheet is answered otherwise"; exit 1; }
done
diff crates/job_sheet/stdin sheets/example.sheet
diff crates/job_sheet/stdout sheets/example.answer
