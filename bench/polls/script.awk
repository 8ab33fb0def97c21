# Writes what comes from outside: eight bytes for the port on each of ten turns, more than may wait there, and then one now and then; one for
# the console and one for no device, which are lost.
# usage: awk -f script.awk > script.txt
BEGIN {
    for (k = 0; k < 80; k++) printf "at %d in 1 %d\n", 100 + int(k / 8), 33 + k
    print "at 500 in 0 65\nat 500 in 2 65"
    for (turn = 1000; turn < 200000; turn += 137) printf "at %d in 1 %d\n", turn, turn % 256
}
