#!/usr/bin/env bash
# Clones the last commit and ships a given program in the clone, to try there what the gate does with a program that was proved.
#
#     .ci/trial.sh PROGRAM FOLDER
#
# FOLDER is made. In it `.ci/clone_tests.sh` and `.ci/package_tests.sh` run over that program, and so do ./eql and ./test.
set -u
program=$(readlink -f "${1:?a program}") folder=${2:?a new folder}
top=$(cd "$(dirname "$(readlink -f "$0")")/.." && pwd) || exit 2
room=$(mktemp -d) || exit 2
trap 'rm -rf "$room"' EXIT

git clone -q "$top" "$folder" || exit 2
cd "$folder" || exit 2
printf '#!/usr/bin/env bash\necho a trial\n' >"$room/rt"
chmod +x "$room/rt"
mkdir -p crates/eql/out
cp "$program" crates/eql/out/eql
touch crates/eql/out/eql
PATH=$room:$PATH release/renew || exit 2
rm -r crates/eql/out
git add release && git -c user.name=trial -c user.email=trial@localhost commit -qm 'A trial'
