# Greatest common divisors by Euclid: recursion, loops that are left early, and compound assignments.
greatest(a, b) = b == 0 ? a : greatest(b, a % b)

least_multiple(a, b) = a ÷ greatest(a, b) * b

# The same divisor by halving and subtracting alone.
function greatest_by_shifts(a, b)
    shifts = 0
    while (a | b) & 1 == 0
        a = a >> 1
        b = b >> 1
        shifts += 1
    end
    while true
        while a & 1 == 0
            a = a >> 1
        end
        while b & 1 == 0
            b = b >> 1
        end
        if a == b
            break
        elseif a > b
            a -= b
        else
            b -= a
        end
    end
    a << shifts
end

function steps(a, b)
    count = 0
    while b != 0
        rest = a % b
        a = b
        b = rest
        count += 1
    end
    count
end

# How many of the pairs up to the limit have no common divisor but 1.
function apart(limit)
    count = 0
    for a in 1:limit
        for b in 1:limit
            greatest(a, b) == 1 || continue
            count += 1
        end
    end
    count
end

# The least multiple of all numbers from 1 to n.
function multiple_up_to(n)
    result = 1
    for i in 2:n
        result = least_multiple(result, i)
    end
    result
end

println("of 1071 and 462: ", greatest(1071, 462), ", after ", steps(1071, 462), " steps")
println("by shifts: ", greatest_by_shifts(1071, 462), " and ", greatest_by_shifts(48, 180))
println("neighbours in Fibonacci's row take the most steps: ", steps(987, 610))
println("21/6 is ", 21 ÷ greatest(21, 6), "/", 6 ÷ greatest(21, 6))
println("the least common multiple of 21 and 6 is ", least_multiple(21, 6))
println("pairs up to 30 without a common divisor: ", apart(30), " of ", 30^2)
println("the least multiple of 1 to 40: ", multiple_up_to(40))
