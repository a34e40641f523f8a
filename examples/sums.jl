# The order of operators, calls on one line and on several, items in a row, and an empty line.
println(1 + 2 + 3 + 4); println(2 * 3 + 4 * 5)

println(100 - 1 - 1, 7 * 11 * 13)
println()
