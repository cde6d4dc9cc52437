#!/usr/bin/env groovy
// sums of Integers and Longs
println 7 - 2 * 3

println 2147483647 + 1          // wraps at 32 bits
println 2147483647 + 1L
println 9223372036854775807 + 1 /* wraps at 64 */
println 3000000000
println 0xFF + 0b101 - -1_000
