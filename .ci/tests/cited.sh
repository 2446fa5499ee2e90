# Every definition, theorem, function and edit that docs/PROOF.md cites exists.
set -e
python3 tools/cited.py
