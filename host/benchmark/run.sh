#!/bin/sh
# Prints the tables of docs/PERFORMANCE.md: ./host/benchmark/run.sh, after `rt lib` in crates/abi and `rt run` in crates/rehearse.
# Debian's libdb5.3-dev and libsqlite3-dev are installed where they are missing.
set -eu
cd "$(dirname "$0")/.."
if [ ! -f /usr/include/db.h ] || [ ! -f /usr/include/sqlite3.h ]; then
    apt-get update -qq
    apt-get install -y -qq libdb5.3-dev libsqlite3-dev
fi
mkdir -p target
cc -O2 -Wall -Wextra -Iinclude -o target/transactions benchmark/transactions.c ../crates/abi/out/libabi.a -lpthread
cc -O2 -Wall -Wextra -o target/berkeley benchmark/berkeley.c -ldb -lpthread
cc -O2 -Wall -Wextra -o target/sqlite benchmark/sqlite.c -lsqlite3
echo "processors $(nproc), load $(cut -d ' ' -f 1-3 /proc/loadavg)"
cargo build --quiet --release --offline -p benchmark -p reference
target/release/benchmark "$PWD/target/transactions" "$PWD/target/berkeley" "$PWD/target/sqlite"
