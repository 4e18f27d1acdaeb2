# sh run.sh SCRIPT: does what a script says in a folder of its own, and says whether all was as written.
#
# A script has cram's form (https://bitheap.org/cram). A line that begins with two spaces and `$ ` is a command, `> `
# after that goes on with it, and the other lines after two spaces are what the command prints, on either stream. A
# status that is not 0 stands after that in brackets. All else is for the reader. The commands of a script run in one
# shell, which knows the functions of `words`; the folder has the files of `networks`.
set -u
script=$PWD/$1
here=$PWD
room=$(mktemp -d)
cp networks/* "$room"
cd "$room" || exit 1

# Makes a program of the script. It prints the script again, with what the commands print now.
awk -v q="'" '
    function quoted(text) { gsub(q, q "\\" q q, text); return q text q }
    function close_command() {
        if (command == "") return
        print "printf \"%s\\n\" " quoted(shown)
        print "{ " command "\n} >\"$said_by_command\" 2>&1 </dev/null"
        print "show $?"
        command = ""
    }
    /^  \$ / { close_command(); command = substr($0, 5); shown = $0; goes_on = 1; next }
    /^  > / && goes_on { command = command "\n" substr($0, 5); shown = shown "\n" $0; next }
    /^  / { goes_on = 0; next }
    { close_command(); print "printf \"%s\\n\" " quoted($0) }
    END { close_command() }
' "$script" >.program
said_by_command=$room/.said
export said_by_command
cat "$here"/words/*.sh .program >.whole

sh .whole >.seen
if diff "$script" .seen >.differences; then
    echo "$1: $(grep -c '^  \$ ' "$script") commands are as written"
else
    echo "$1: differs (<: as written, >: as seen)"
    cat .differences
fi
cd "$here" && rm -rf "$room"
