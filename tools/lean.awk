# Turns replay's lines into seconds and degrees: how far the sensor's z axis stands from up. The first line has the rate's bits
# and the convention. Floats are decoded by hand, as not every awk reads hexadecimal.

# The f32 with these bits.
function float(bits,    sign, power, digits) {
    sign = bits >= 2 ^ 31 ? -1 : 1
    bits -= sign < 0 ? 2 ^ 31 : 0
    power = int(bits / 2 ^ 23)
    digits = bits - power * 2 ^ 23
    return sign * (power ? (digits + 2 ^ 23) * 2 ^ (power - 150) : digits * 2 ^ -149)
}

# The number that a word of hexadecimal digits is.
function number(word,    i, n) {
    for (i = 1; i <= length(word); i++)
        n = n * 16 + index("0123456789ABCDEF", substr(word, i, 1)) - 1
    return n
}

# Right for small angles too, where an arc cosine is not.
function lean(w, x, y, z) {
    return atan2(2 * sqrt(x * x + y * y) * sqrt(w * w + z * z), w * w + z * z - x * x - y * y) * 180 / atan2(0, -1)
}

# One write a line, so that a write that fails leaves no part of what comes after it.
function tell(line) {
    printf "%s", line "\n"
    fflush()
}

/^refused/ {
    tell($0)
    next
}

NR == 1 {
    rate = float(number($1))
    down = $2 == 2
    next
}

{
    for (i = 1; i <= 4; i++)
        q[i] = float(number($i))
    degrees = lean(q[1], q[2], q[3], q[4])
    # A quaternion of zero, which readings of huge size can leave, points nowhere.
    none = !q[1] && !q[2] && !q[3] && !q[4]
    tell(sprintf("%.3f %s", (NR - 1) / rate, none ? "none" : sprintf("%.2f", down ? 180 - degrees : degrees)))
}
