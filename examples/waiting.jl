# `@sync` waits for the tasks that are written in it, also for those that these make. A task's handle
# may be kept and waited for more than once.
function countdown(n)
    while n > 0
        n -= 1
        yield()
    end
    n
end

@sync begin
    @spawn begin
        @spawn countdown(3)
        countdown(5)
    end
    for i in 1:3
        @spawn countdown(i)
    end
end
println("all are done")

t = @spawn @spawn 6 * 7
inner = fetch(t)
wait(inner)
println(fetch(inner), " ", fetch(fetch(t)))
println(wait(t), " ", t == nothing)
