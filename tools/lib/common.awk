# What the programs in awk have in common: refusals, and numbers in sixteens.
# Where `refused` is set, nothing more is to be done: END has to ask.
function refuse(what) {
    print ENVIRON["NAME"] ": " what | "cat 1>&2"
    close("cat 1>&2")
    refused = 1
    exit 1
}
function in_base(digits, base,    k, n) {
    n = 0
    for (k = 1; k <= length(digits); k++) n = base * n + index("0123456789abcdef", tolower(substr(digits, k, 1))) - 1
    return n
}
function number(digits) { return in_base(digits, 16) }
function hexadecimal(n,    k, text) {
    text = ""
    for (k = 0; k < 8; k++) { text = substr("0123456789abcdef", n % 16 + 1, 1) text; n = int(n / 16) }
    return text
}
