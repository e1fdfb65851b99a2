#!/bin/sh
# Runs test_typing and test_cases over all cases of a folder: ./whole.sh FOLDER
#
# The folder is that of make_data.py, make_infos.py, make_checks.py and make_functions.py, and has the corpora of make_types.py
# as typing.jsonl and of make_tests.py and make_summaries.py as summaries.jsonl. make_chains.py, make_names.py and make_turns.py
# need no corpus. The programs have to be built (`rt run`, once each); their last lines count the cases, and the status is 0 where
# none differs.

crate=$(cd "$(dirname "$0")" && pwd) || exit 1
room=$(mktemp -d) || exit 1
trap 'rm -rf "$room"' EXIT
python3 "$crate/make_data.py" "$1" "$room" --all || exit 1
python3 "$crate/make_types.py" "$1/typing.jsonl" "$room" --all || exit 1
python3 "$crate/make_tests.py" "$1/summaries.jsonl" "$room" --all || exit 1
python3 "$crate/make_summaries.py" "$1/summaries.jsonl" "$room" --all || exit 1
python3 "$crate/make_chains.py" "$room" || exit 1
python3 "$crate/make_infos.py" "$1" "$room" --all || exit 1
python3 "$crate/make_checks.py" "$1" "$room" --all || exit 1
python3 "$crate/make_functions.py" "$1" "$room" --all || exit 1
python3 "$crate/make_names.py" "$room" || exit 1
python3 "$crate/make_turns.py" "$room" || exit 1
echo '[]' > "$room/files.json"
cd "$room" && "$crate/out/test_typing" && "$crate/../test_cases/out/test_cases" < /dev/null
