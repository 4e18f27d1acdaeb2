#!/usr/bin/env bash
# Draws the pictures of docs/ again: the forged tokens, a scrambled square whose edge 1-3 goes and joins again, and
# what three nodes did on threads, and as processes of which one is killed, which differ from run to run; and the
# films of the square, without that edge's part and with it. It also makes films of a star of 64 over 170,000 events,
# alone and in a page, and prints their sizes and times. If there is a Chromium (CHROMIUM, or chromium in PATH), it
# renders each picture without a screen, as NAME.png in the folder $1 (or in a new folder), and each film at 0, 25, 50
# and 100 % of its time, as NAME-PERCENT.png. If there is Node.js too, it tries pages of the square over 1,000 and
# 100,000 events by their keys, with four pictures of each (bench/page.js). The program is ./tokentree, or what
# TOKENTREE names.
set -euo pipefail
cd "$(dirname "$0")/.."
program=$(realpath "${TOKENTREE:-./tokentree}")
shown=${1:-$(mktemp -d)}
mkdir -p "$shown"
folder=$(mktemp -d)
trap 'rm -rf "$folder"' EXIT

# $1 rounds of the square, over the links $2: each node ticks, and then each frame goes twice over each link.
square_rounds() {
    awk -v rounds="$1" -v links="$2" 'BEGIN {
        count = split(links, link, ",")
        for (i = 0; i < rounds; i++) {
            for (v = 0; v < 4; v++) print "tick " v
            for (k = 1; k <= count; k++) for (times = 0; times < 2; times++) print "send " link[k] "\ntake " link[k]
        }
    }'
}

# Two nodes: the tokens are forged; 3 rounds, ticket 5 releases the lock, then 72 rounds, each a sweep.
{
    cat examples/forged-tokens.txt
    for _ in 1 2 3; do cat examples/round.txt; done
    echo "leave 0 5"
    for _ in $(seq 72); do cat examples/round.txt; done
} > "$folder/forged-tokens"
"$program" draw examples/two-nodes.toml "$folder/forged-tokens" > docs/forged-tokens.svg

# The square: all is scrambled; from round 20 on clients ask at nodes 1 and 2; after 80 rounds the edge 1-3 goes, and
# after 40 more it joins.
all="0 1,0 2,1 0,1 3,2 0,2 3,3 1,3 2"
{
    cat examples/scrambled-square.txt
    square_rounds 20 "$all"
    printf 'ask 1 21\nask 2 22\n'
    square_rounds 20 "$all"
    printf 'leave 1 21\n'
    square_rounds 20 "$all"
    printf 'leave 2 22\n'
    square_rounds 20 "$all"
} > "$folder/square"
{
    cat "$folder/square"
    echo "harm part 1 3"
    square_rounds 40 "0 1,0 2,1 0,2 0,2 3,3 2"
    echo "harm join 1 3"
    square_rounds 80 "$all"
} > "$folder/scrambled-square"
# Clients of this run release the lock themselves.
sed 's/^lease = .*/lease = 0/' examples/square.toml > "$folder/square.toml"
"$program" draw "$folder/square.toml" "$folder/scrambled-square" > docs/scrambled-square.svg

# A line of three: what its nodes did on threads in 60,000 turns each.
# Threads often run one after the other at first, so the turns are many; the picture ends with the 60th sweep.
"$program" threads examples/line-of-three.toml 60000 --events "$folder/threads" > /dev/null
"$program" draw examples/line-of-three.toml "$folder/threads" --from 0 --to 60 > docs/threads.svg

# Three nodes keep records while clients take the lock; node 1 is killed, and comes again.
run=$folder/run
sleep 9 | "$program" up examples/ring-of-three.toml "$run" --record > /dev/null 2>&1 &
sleep 2.5
for node in 0 1 2; do "$program" lock "$run" "$node" -- sleep 0.2; done
kill -KILL "$(pgrep -f "ring-of-three.toml 1 $run")"
sleep 1.5
for node in 1 2; do "$program" lock "$run" "$node" -- sleep 0.2; done
wait
"$program" gather "$run" --network examples/ring-of-three.toml > "$folder/killed"
"$program" draw examples/ring-of-three.toml "$folder/killed" --columns 300 --layers > docs/killed-node.svg

# The films of both runs.
"$program" draw "$folder/square.toml" "$folder/square" --film > docs/square-film.svg
"$program" draw "$folder/square.toml" "$folder/scrambled-square" --film --seconds 40 > docs/edge-film.svg

# The star of 64, scrambled: 298 rounds of 568 events.
"$program" network star 64 > "$folder/star.toml"
"$program" schedule "$folder/star.toml" --scramble 7 --rounds 298 > "$folder/star"
wc -l < "$folder/star"
for form in "" --page; do
    TIMEFORMAT="star of 64 $form: %R s"
    # shellcheck disable=SC2086
    time "$program" draw "$folder/star.toml" "$folder/star" --film $form > "$folder/star-film$form"
    echo "star of 64 $form: $(wc -c < "$folder/star-film$form") bytes"
done

# Shows a film at four moments. At the very end it begins again, so its last hundredth of a second is shown.
show_film() {
    local film=$1 name=$2 long percent seconds
    long=$(grep -o 'dur="[0-9]*ms"' "$film" | head -n 1 | tr -dc 0-9)
    for percent in 0 25 50 100; do
        seconds=$(awk -v long="$long" -v percent="$percent" 'BEGIN { at = long * percent / 100; print (at < long ? at : at - 10) / 1000 }')
        {
            echo '<!DOCTYPE html><body style="margin:0">'
            cat "$film"
            echo "<script>var film = document.querySelector('svg'); film.pauseAnimations(); film.setCurrentTime($seconds)</script>"
        } > "$folder/moment.html"
        "$browser" --headless --no-sandbox --disable-gpu --hide-scrollbars --window-size=1440,900 --virtual-time-budget=300 \
            --screenshot="$shown/$name-$percent.png" "file://$folder/moment.html" 2> /dev/null
        echo "$shown/$name-$percent.png"
    done
}

browser=${CHROMIUM:-$(command -v chromium || command -v chromium-browser || true)}

# Pages over the first events of a schedule of the square.
"$program" schedule examples/square.toml --scramble 7 --rounds 2800 > "$folder/rounds"
for events in 1000 100000; do
    head -n "$events" "$folder/rounds" > "$folder/first"
    "$program" draw examples/square.toml "$folder/first" --film --page > "$folder/page.html"
    echo "page of $(wc -l < "$folder/first") events: $(wc -c < "$folder/page.html") bytes"
    if [ -n "$browser" ] && command -v node > /dev/null; then
        node bench/page.js "$browser" "$folder/page.html" "$shown" "square-$events"
    fi
done

for name in forged-tokens scrambled-square threads killed-node; do
    echo "docs/$name.svg $(wc -c < "docs/$name.svg") bytes"
    if [ -n "$browser" ]; then
        "$browser" --headless --no-sandbox --disable-gpu --hide-scrollbars --window-size=1440,900 \
            --screenshot="$shown/$name.png" "file://$PWD/docs/$name.svg" 2> /dev/null
        echo "$shown/$name.png"
    fi
done
for name in square-film edge-film; do
    echo "docs/$name.svg $(wc -c < "docs/$name.svg") bytes"
    [ -z "$browser" ] || show_film "docs/$name.svg" "$name"
done
[ -z "$browser" ] || show_film "$folder/star-film" star-film
[ -n "$browser" ] || echo "no Chromium is there to show them"
