# What scripts of the records of nodes know as well.

# entries RECORD: the entries of a record, a line each: the name of its kind, and its fields. `rest` stands after the
# last whole entry if bytes are left, and `spoiled` where an entry is none. An entry is numbers in LEB128: the kind, the
# microseconds since the entry before it, the fields; and then a byte that makes the sum of all bytes 255 modulo 256.
entries() {
    od -An -v -tu1 "$1" | awk '
        BEGIN {
            split("start own port waits loan whole ticks takes takes-again sends sends-again asks leaves joins parts" \
                " connects disconnects", names, " ")
            split("2 2 10 1 3 0 0 6 1 6 1 1 1 1 1 1 1", fields, " ")
            weight = 1
            CONVFMT = "%.0f"
        }
        function end_entry() {
            if (sum % 256 != 255 || !(kind in names)) { print "spoiled"; exit }
            print line
            count = sum = size = 0
        }
        function add_number() {
            count++
            if (count == 1) { kind = number; line = names[kind] }
            if (count > 2) line = line " " number
            number = 0
            weight = 1
        }
        {
            for (place = 1; place <= NF; place++) {
                size++
                sum += $place
                if (count >= 2 && count == 2 + fields[kind]) { end_entry(); continue }
                number += $place % 128 * weight
                weight *= 128
                if ($place < 128) add_number()
            }
        }
        END { if (size > 0) print "rest" }
    '
}

# kinds RECORD: the kinds of its entries in their order, without ticks, of which there should be ten or more.
kinds() {
    entries "$1" >seen
    [ "$(grep -cx ticks seen)" -ge 10 ] || echo "few ticks"
    sed '/^ticks$/d; s/ .*//' seen | paste -s -d ' ' -
}
