# Whether each function that a table of docs/PROOF.md names is there, with each clause named beside it; status 1 where one is not.
# A row: a claim, functions `crate::path::name`, and the names of their clauses, those of each function set apart by `;`.
# usage: awk -f claims.awk crates/*/src/*.rt crates/*/src/*/*.rt docs/PROOF.md
function words(text, list,    n, w) { n = 0; while (match(text, /`[^`]*`/)) { list[++n] = substr(text, RSTART + 1, RLENGTH - 2); text = substr(text, RSTART + RLENGTH) } return n }
FNR == 1 { split(FILENAME, part, "/"); crate = part[2]; type = ""; fn = "" }
FILENAME ~ /\.rt$/ && /^impl/ { type = $0; sub(/ *\{.*/, "", type); sub(/.* /, "", type); sub(/<.*/, "", type) }
FILENAME ~ /\.rt$/ && /^\}/ { type = "" }
FILENAME ~ /\.rt$/ && /^ *(pub(\(crate\))? )?fn / {
    fn = $0; is_pub = fn ~ /^ *pub fn/; sub(/.*fn /, "", fn); sub(/[(<].*/, "", fn)
    fn = crate "::" ($0 ~ /^ / && type != "" ? type "::" : "") fn
    if (is_pub) known[fn] = 1
}
FILENAME ~ /\.rt$/ && /^ *ensures [a-z_]+ / { clause[fn, $2] = 1 }
FILENAME ~ /\.md$/ && /^\| .*`[a-z_]+::/ {
    split($0, cell, / \| | \|$/); n = words(cell[2], names); split(cell[3], groups, /;/); rows++
    for (k = 1; k <= n; k++) {
        if (!(names[k] in known)) { print FILENAME ":" FNR ": no public function " names[k]; bad = 1 }
        m = words(groups[k], wanted)
        for (j = 1; j <= m; j++) if (!((names[k], wanted[j]) in clause)) { print FILENAME ":" FNR ": " names[k] " has no clause " wanted[j]; bad = 1 }
    }
}
END { print rows " claims, each with its clause" (bad ? " but these" : ""); exit bad || !rows }
