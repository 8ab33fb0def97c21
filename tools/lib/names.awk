# names, over a trace, behind places.awk.
function told(text) { printf "%-60s ; %s\n", $0, text }
# LR has bit 0 set
function returns(digits,    text) {
    text = place(hexadecimal(number(digits) - number(digits) % 2))
    return text == "" ? "" : ", returns to " text
}
$2 == "insn" { told(place($4)); next }
$1 == "high" { told(place($9) returns($8)); next }
{ print }
