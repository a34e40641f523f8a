# Divide and conquer: the sum of squares from a to b, halved until a part is short, one half of each in
# a task of its own. The tasks of one level are waited for in the order of their making.
const shortest = 10

function sum_of_squares(a, b)
    if b - a < shortest
        s = 0
        for i in a:b
            s += i * i
        end
        return s
    end
    middle = (a + b) ÷ 2
    left = @spawn sum_of_squares(a, middle)
    right = sum_of_squares(middle + 1, b)
    fetch(left) + right
end

println(sum_of_squares(1, 1000))
