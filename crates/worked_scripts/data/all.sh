# sh all.sh PROGRAM: runs each script here, with PROGRAM as `tokentree`, and says how each ended. The scripts of command
# lines run one after the other; beside them run the scripts of nodes, all at once. It changes nothing in this folder.
set -u
program=$1
cd "$(dirname "$0")" || exit 1
all=$(mktemp -d)
mkdir "$all/programs" "$all/ended"
ln -s "$program" "$all/programs/tokentree"
PATH=$all/programs:$PATH
export PATH

# How the scripts of command lines ended.
for script in lines/*.t; do
    sh run.sh "$script"
done >"$all/ended/lines" 2>&1 &
# How each script of nodes ended.
for script in nodes/*.t; do
    sh run.sh "$script" >"$all/ended/$(basename "$script")" 2>&1 &
done
wait
cat "$all/ended/lines" "$all"/ended/*.t
rm -rf "$all"
