# check: the answers for a build server, in the form that JUnit writes. A line `case SECONDS NAME` is a case; lines `why ..` behind it are
# the reasons why it does not hold.
BEGIN { suite = xml(ENVIRON["SUITE"]) }
# what XML has signs for; a byte that is no part of UTF-8 as a question mark
function xml(text,    k, n, c, out) {
    gsub(/&/, "\\&amp;", text); gsub(/</, "\\&lt;", text); gsub(/>/, "\\&gt;", text); gsub(/"/, "\\&quot;", text)
    gsub(/[\001-\010\013-\037\177]/, "?", text)
    if (text !~ /[\200-\377]/) return text
    out = ""
    for (k = 1; k <= length(text); k += n) {
        c = substr(text, k)
        n = c ~ /^[\302-\337][\200-\277]/ ? 2 : c ~ /^(\340[\240-\277]|[\341-\354\356\357][\200-\277]|\355[\200-\237])[\200-\277]/ ? 3 : \
            c ~ /^(\360[\220-\277]|[\361-\363][\200-\277]|\364[\200-\217])[\200-\277][\200-\277]/ ? 4 : 1
        c = substr(c, 1, n)
        out = out (n == 1 && c ~ /[\200-\377]/ ? "?" : c)
    }
    return out
}
function close_case() {
    if (!open_case) return
    if (why == "") body = body "/>\n"
    else body = body ">\n      <failure message=\"" first "\">" why "</failure>\n    </testcase>\n"
    open_case = 0
    why = ""
}
$1 == "case" {
    close_case()
    all++
    seconds += $2
    name = $0
    sub(/^case [^ ]* /, "", name)
    body = body "    <testcase classname=\"" suite "\" name=\"" xml(name) "\" time=\"" $2 "\""
    open_case = 1
}
$1 == "why" {
    text = xml(substr($0, 5))
    if (why == "") { bad++; first = text; why = text } else why = why "\n" text
}
END {
    close_case()
    counts = sprintf("name=\"%s\" tests=\"%d\" failures=\"%d\" errors=\"0\" skipped=\"0\" time=\"%.3f\"", suite, all, bad, seconds)
    printf "<?xml version=\"1.0\" encoding=\"UTF-8\"?>\n<testsuites %s>\n  <testsuite %s>\n%s  </testsuite>\n</testsuites>\n", counts, counts, body
}
