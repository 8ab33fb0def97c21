# check: a tracefile of lcov, with the sections of each source together.
BEGIN { FS = "[:,]" }
{ value = $0; sub(/^[^:]*:/, "", value) }
$1 == "SF" { file = value; if (!(file in known)) { known[file] = 1; order[++files] = file } }
$1 == "DA" { if (!((file, $2) in count)) line[file, ++lines[file]] = $2; count[file, $2] += $3 }
$1 == "BRDA" {
    key = $2 "," $3 "," $4
    if (!((file, key) in way)) { way_of[file, ++ways[file]] = key; way[file, key] = "-" }
    if ($5 != "-") way[file, key] += $5
}
END {
    for (f = 1; f <= files; f++) {
        file = order[f]
        hit = gone = 0
        print "TN:\nSF:" file
        for (k = 1; k <= ways[file]; k++) {
            key = way_of[file, k]
            print "BRDA:" key "," way[file, key]
            gone += way[file, key] != "-" && way[file, key] > 0
        }
        if (ways[file]) print "BRF:" ways[file] "\nBRH:" gone
        for (k = 1; k <= lines[file]; k++) { print "DA:" line[file, k] "," count[file, line[file, k]]; hit += count[file, line[file, k]] > 0 }
        print "LF:" lines[file] + 0 "\nLH:" hit "\nend_of_record"
    }
}
