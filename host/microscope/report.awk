# Reads host/microscope/allowed and then memcheck's logs: lists each function that has a report, by call, with its reason, and fails if one has
# none or has another number of places.

FILENAME == ARGV[1] {
    if ($0 ~ /^[ \t]*(#|$)/) next
    bar = index($0, "|")
    words = substr($0, 1, bar - 1)
    gsub(/[ \t]+/, " ", words)
    sub(/ $/, "", words)
    count = words
    sub(/.* /, "", count)
    sub(/ [^ ]*$/, "", words)
    due[words] = count + 0
    reason[words] = substr($0, bar + 2)
    next
}

/\*\* CALL / { call = $0; sub(/.*CALL /, "", call); next }
/Conditional jump or move depends/ { kind = "jump"; next }
/Use of uninitialised value/ { kind = "address"; next }
kind && /    at 0x/ {
    where = $0
    sub(/.*at 0x[0-9A-Fa-f]+: /, "", where)
    sub(/ \(.*/, "", where)
    address = $0
    sub(/.*at /, "", address)
    sub(/:.*/, "", address)
    key = kind " " call " " where
    if (!((key, address) in seen)) { seen[key, address] = 1; places[key]++; found[key] = found[key] " " address }
    kind = ""
    next
}
# anything else that memcheck says (an invalid read, say) is no question of secrets, and worse
/Invalid (read|write)|Jump to the invalid address|points to uninitialised/ { print "memcheck: " $0; bad = 1 }

END {
    for (key in places) {
        if (!(key in due)) verdict = "NOT ALLOWED:" found[key]
        else if (due[key] != places[key]) verdict = "NOT ALLOWED: " due[key] " places are named, these were seen:" found[key]
        else verdict = reason[key]
        if (verdict ~ /^NOT ALLOWED/) bad = 1
        printf "%-40s %2d  %s\n", key, places[key], verdict | "sort"
    }
    close("sort")
    for (key in due) if (!(key in places)) { print "not seen any more: " key; bad = 1 }
    print sessions " sessions under memcheck: " (bad ? "NOT every jump and address that depends on a secret is named" : "every jump and address that depends on a secret is named")
    exit bad
}
