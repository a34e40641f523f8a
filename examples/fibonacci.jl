# A task for each second call: each call makes a task, goes on with the other half, and then waits.
function fib(n)
    if n < 2
        return n
    end
    t = Threads.@spawn fib(n - 2)
    fib(n - 1) + fetch(t)
end

for n in 0:4
    println("fib(", n * 4, ") = ", fib(n * 4))
end
