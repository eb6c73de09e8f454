#!/bin/sh
# Debian's newest C library beside this machine's: fetched by apt from its unstable suite, unpacked and not installed. Prints the words to
# put before a program's name that make it run on that library: its loader, and where that one is to look.
# newest-libc.sh FOLDER    what is already unpacked there is taken
set -eu
folder=${1:?usage: newest-libc.sh FOLDER}
unpacked=$folder/unpacked
libraries=$unpacked/usr/lib/x86_64-linux-gnu

# where this machine's packages come from
mirror() {
    cat /etc/apt/sources.list /etc/apt/sources.list.d/* 2> /dev/null | sed 's/#.*//' | tr ' ' '\n' |
        grep -m 1 -E '^https?://.*/debian/?$' || echo http://deb.debian.org/debian
}

# lists and packages of its own, so that what the machine has installed or may install stays as it is
fetch() {
    mkdir -p lists/partial cache/archives/partial
    echo "deb [signed-by=/usr/share/keyrings/debian-archive-keyring.gpg] $(mirror) unstable main" > sources
    set -- -o Dir::Etc::SourceList="$PWD/sources" -o Dir::Etc::SourceParts=/dev/null -o Dir::State::Lists="$PWD/lists" \
        -o Dir::Cache="$PWD/cache" -o APT::Sandbox::User=root
    apt-get "$@" update --error-on=any && apt-get "$@" download libc6 && dpkg-deb --extract libc6_*.deb "$(basename "$unpacked")"
}

if [ ! -e "$libraries/libm.so.6" ]; then
    rm -rf "$folder"
    mkdir -p "$folder"
    (cd "$folder" && fetch > log 2>&1) || {
        echo "Debian's newest C library cannot be fetched:" >&2
        tail -n 2 "$folder/log" >&2
        exit 1
    }
fi
echo "$libraries/ld-linux-x86-64.so.2 --library-path $libraries"
