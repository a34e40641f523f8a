# Functions, `while` and `for` loops, the conditional expression: an even number is halved, an odd
# one is multiplied by 3 and raised by 1, until 1 is reached.
next(n) = n % 2 == 0 ? n ÷ 2 : 3 * n + 1

function steps_to_one(n)
    steps = 0
    while n != 1
        n = next(n)
        steps += 1
    end
    steps
end

function highest(n)
    top = n
    while n != 1
        n = next(n)
        if n > top
            top = n
        end
    end
    return top
end

function slowest_up_to(limit)
    slowest = 1
    most = 0
    for n in 1:limit
        steps = steps_to_one(n)
        steps > most || continue
        slowest = n
        most = steps
    end
    slowest
end

for n in 1:10
    println(n, ": ", steps_to_one(n), " steps, at most ", highest(n))
end
println("the slowest up to 1000: ", slowest_up_to(1000))
println("27 takes ", steps_to_one(27), " steps, and climbs to ", highest(27))
