// Counts down, and leaves out what is a multiple of three.
def n = 9
while (n > 0) {
    def third = 0
    while (third < n) third += 3
    if (third == n) { n -= 1; continue }
    println n
    n = n - 1
}
println 'done'
