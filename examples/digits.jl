# Division and its remainders, recursion, truth values: sums of the decimal digits of a number.
const base = 10

digit_sum(n) = n < base ? n : n % base + digit_sum(n ÷ base)

function root(n)
    while n >= base
        n = digit_sum(n)
    end
    n
end

# The digits in reverse order.
function reversed(n)
    result = 0
    while n > 0
        result = base * result + rem(n, base)
        n = div(n, base)
    end
    result
end

is_palindrome(n) = n == reversed(n)

# Adds the reverse until the digits read the same from both ends; nothing where that takes too long.
function palindrome_from(n, tries)
    for i in 1:tries
        is_palindrome(n) && return n
        n += reversed(n)
    end
end

# The sum of the squares of the digits, over and over, ends at 1 or goes round through 4.
function is_happy(n)
    while n != 1 && n != 4
        total = 0
        while n > 0
            digit = n % base
            total += digit^2
            n ÷= base
        end
        n = total
    end
    n == 1
end

println("2^62 = ", 2^62, " has the digit sum ", digit_sum(2^62), " and the root ", root(2^62))
println("the root of a multiple of 9: ", root(9 * 123456789))
println("1221 is a palindrome: ", is_palindrome(1221), ", 1222 is one: ", is_palindrome(1222))
println("from 89: ", palindrome_from(89, 100))
println("from 196: ", palindrome_from(196, 20))
for n in 1:10
    println(n, " is happy: ", is_happy(n))
end
println("-17 by 5: ", div(-17, 5), " and ", rem(-17, 5), " are left, or ", mod(-17, 5), " by rounding down")
