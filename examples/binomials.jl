#= In how many ways k things are chosen of n, by sums and by products: recursion, nested loops,
   and chains of comparisons. =#
function chosen(n, k)
    if k < 0 || k > n
        0
    elseif k == 0 || k == n
        1
    else
        chosen(n - 1, k - 1) + chosen(n - 1, k)
    end
end

# The same by products. Each step divides evenly.
function chosen_fast(n, k)
    0 <= k <= n || return 0
    result = 1
    for i in 1:k
        result = result * (n - k + i) ÷ i
    end
    result
end

function row_sum(n)
    total = 0
    for k in 0:n
        total += chosen_fast(n, k)
    end
    total
end

# How many odd numbers the first rows have. That in row n at k is odd where k has no bit that n lacks.
function odd_numbers(rows)
    count = 0
    for n in 0:rows-1
        for k in 0:n
            if k & ~n == 0
                count += 1
            end
        end
    end
    count
end

function agree(limit)
    for n in 0:limit
        for k in -1:n+1
            if chosen(n, k) != chosen_fast(n, k)
                return false
            end
        end
    end
    true
end

for k in 0:6
    println("6 over ", k, " is ", chosen(6, k))
end
println("both ways agree up to 12: ", agree(12))
println("49 over 6 is ", chosen_fast(49, 6), ", 60 over 30 is ", chosen_fast(60, 30))
println("the sum of row 20 is ", row_sum(20), ", and 1 << 20 is ", 1 << 20)
println("odd numbers in the first 16 rows: ", odd_numbers(16), ", and 3^4 is ", 3^4)
