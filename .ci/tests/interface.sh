# The header, the declarations in Rust and the exports are of the same functions with the same parameters.
set -e
python3 tools/interface.py
