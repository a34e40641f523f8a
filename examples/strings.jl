#= Strings between numbers, with escapes. Comments like this one
   may go over several lines, and #= nest =#. =#
println("7 * 6 = ", 7 * 6)
println("a tab:\tand a quote: \"", "  a price: \$", 12)
println("two",
    " lines of the script, ",   # the line goes on within the parentheses
    "one line of output")
println("ä ≤ ö")
