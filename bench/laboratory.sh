#!/usr/bin/env bash
# Runs the commands of docs/LABORATORY.md in a folder of its own, and shows what they print. With --pictures it also
# writes the pictures of that document again. The program is ./tokentree, or what TOKENTREE names.
set -euo pipefail
cd "$(dirname "$0")/.."
tokentree=$(realpath "${TOKENTREE:-./tokentree}")
docs=$(realpath docs)
folder=$(mktemp -d)
trap 'rm -rf "$folder"' EXIT
cd "$folder"

title() { printf '\n== %s\n' "$1"; }

# The line of a measurement with the least, the median and the greatest number of sweeps, and the sharper bound.
measured() { "$tokentree" measure "$1" --runs "${2:-200}" | awk '$1 == "sweeps" { line = $0 } $1 == "sharp" { print line, "of", $2 }'; }

title "1. Damage, and recovery"
"$tokentree" network ring 5 --lease 16 > ring.toml
"$tokentree" schedule ring.toml --scramble 7 --rounds 0 > damage.txt
"$tokentree" simulate ring.toml damage.txt | grep -v '^link'
"$tokentree" schedule ring.toml --scramble 7 --rounds 40 > run.txt
"$tokentree" simulate ring.toml run.txt | grep -v '^link'
"$tokentree" draw ring.toml run.txt > recovery.svg
"$tokentree" draw ring.toml run.txt --film --page > recovery.html

title "2. One layer above the other"
for rounds in 0 2 4 6 8 10 15 20 30 40; do
    "$tokentree" schedule ring.toml --scramble 7 --rounds "$rounds" | "$tokentree" simulate ring.toml - --layers |
        awk -v rounds="$rounds" '
            $1 == "node" { said = said " " $4 "/" $6 }
            $1 == "links" { said = said "; links " $2 " of " $4 }
            $1 == "distances" { said = said ", stage " $6 " of " $8 }
            $1 ~ /^(tree|ring|loans|legitimate)$/ { said = said ", " $0 }
            $1 == "privileged" { said = said "; " $0 }
            END { print "rounds " rounds ": distance/parent" said }'
done

"$tokentree" draw ring.toml run.txt --layers > layers.svg
"$tokentree" measure ring.toml --runs 200 --csv --plot settled.svg | awk -F, '
    NR == 1 { for (i = 3; i <= NF; i++) name[i] = $i; next }
    { for (i = 3; i <= NF; i++) { sum[i] += $i; if ($i > most[i]) most[i] = $i } }
    END { for (i = 3; i in name; i++) print name[i] ": mean " sum[i] / (NR - 1) ", most " most[i] }'

title "3. Six places, seven values"
"$tokentree" network line 2 > two.toml
"$tokentree" bound two.toml | grep '^ring'
cat > six.txt <<'END'
harm own 0 0 none
harm own 1 1 0
harm value 0 1 0
harm staged 0 1 0 none 1
harm copy 1 0 0 none 2
harm value 1 0 3
harm staged 1 0 1 0 4
harm copy 0 1 1 0 5
END
"$tokentree" simulate two.toml six.txt | grep '^privileged'
for rounds in 1 2 3 4 5 6 7 8; do
    { cat six.txt; "$tokentree" schedule two.toml --rounds "$rounds"; } | "$tokentree" simulate two.toml - |
        awk -v rounds="$rounds" '$1 == "privileged" { print "rounds " rounds ": " $0 }'
done
"$tokentree" schedule two.toml --rounds 12 | cat six.txt - > values.txt
"$tokentree" draw two.toml values.txt > values.svg

title "4. The part of the distance"
for kind in "line 16" "ring 16" "tree 16" "star 16" "complete 16"; do
    # The kind and the number of nodes are two words.
    # shellcheck disable=SC2086
    "$tokentree" network $kind > network.toml
    echo "$kind: $(measured network.toml)"
done
for kind in line star; do
    "$tokentree" network "$kind" 16 > network.toml
    "$tokentree" measure network.toml --runs 200 --csv --plot "$kind-16.svg" > "$kind-16.csv"
done

title "5. The part of the capacity"
for capacity in 1 4 16 64; do
    "$tokentree" network ring 5 --capacity "$capacity" > network.toml
    echo "capacity $capacity: $(measured network.toml)"
    "$tokentree" measure network.toml --runs 200 --csv --plot "capacity-$capacity.svg" > "capacity-$capacity.csv"
done

title "6. How bad can it get?"
"$tokentree" network line 4 > network.toml
"$tokentree" worst network.toml --events late.txt | tee worst.txt
"$tokentree" simulate network.toml late.txt | tail -n 1
"$tokentree" draw network.toml late.txt > late.svg

if [ "${1:-}" = --pictures ]; then
    mkdir -p "$docs/laboratory"
    for picture in recovery layers settled values line-16 star-16 capacity-1 capacity-64 late; do
        cp "$picture.svg" "$docs/laboratory/$picture.svg"
    done
fi
