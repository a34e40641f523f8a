# A task that fails, and who learns of it: nobody, as long as nobody waits for it.
function half(n)
    n % 2 == 0 || error("odd")
    n ÷ 2
end

even = Threads.@spawn half(10)
odd = Threads.@spawn half(11)
println(fetch(even))

# The main task fails here, with the task that it fetched, and the last line isn't reached.
println(fetch(odd))
println("never")
