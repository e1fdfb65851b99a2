#!/bin/sh
# Runs the program over all documents of functions.jsonl and whole.jsonl in a folder, of which data/ has some:
# ./whole.sh FOLDER
#
# The program has to be built (`rt run`, once); its lines count the documents, and the status is 0 where none differs.

crate=$(cd "$(dirname "$0")" && pwd) || exit 1
room=$(mktemp -d) || exit 1
trap 'rm -rf "$room"' EXIT
for name in functions whole; do
    python3 "$crate/make_data.py" --corpus "$name" "$1/$name.jsonl" "$room" || exit 1
done
echo '["functions.json", "whole.json"]' > "$room/files.json"
for name in handles checks functions names turns; do
    : > "$room/$name.jsonl"
done
cd "$room" && "$crate/out/test_cases" < /dev/null
