#!/bin/sh
# The program that lies beside this file, at fixed addresses where the system lets it: where they are very random, a sanitizer of an older
# compiler can fail before the program has begun.
fixed="setarch $(uname -m) -R"
$fixed true 2> /dev/null || fixed=
exec $fixed "$0-program" "$@"
