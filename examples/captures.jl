# What a task takes from its maker: variables that are assigned just once before it, and by a `$` the
# value that a variable has when the task is made.
function digits(n)
    total = 0
    while n > 0
        digit = @spawn $n % 10
        n ÷= 10
        total += fetch(digit)
    end
    total
end

base = 7
power = @spawn begin
    p = 1
    for i in 1:4
        p *= base
    end
    p
end
println(digits(98765), " ", fetch(power))

# Each turn of a loop has a variable of its own, which its task takes.
function squares(n)
    total = 0
    for i in 1:n
        total += fetch(@spawn i * i)
    end
    total
end
println(squares(10))
