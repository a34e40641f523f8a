# Sums, differences and products wrap as Julia's Int64 does.
println(9223372036854775807 + 1)
println(4611686018427387904 * 2 - 1)
println(0 - 9223372036854775807 - 2)
