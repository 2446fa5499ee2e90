# The header compiles in C and in C++.
set -e
gcc -Wall -Wextra -Werror -fsyntax-only -x c include/vakhudle.h
g++ -Wall -Wextra -Werror -fsyntax-only -x c++ include/vakhudle.h
