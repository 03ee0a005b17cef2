# The words of a refused line, by their bytes, for what is said of it. It is run in front of explain.awk and of
# leave.awk.
#
# Variable: bytes, those of the line as decimal numbers. The words themselves stand in `word`, from 1.

# The place in `bytes` of the first byte of each word of the refused line, and how many it has.
function find_words(    i, inside) {
    byte_count = split(bytes, byte, " ")
    if (byte_count > 0 && byte[byte_count] == 13) byte_count--
    for (i = 1; i <= byte_count; i++) {
        if (byte[i] == 32 || byte[i] == 9) inside = 0
        else {
            if (!inside) { inside = 1; from[++word_count] = i }
            width[word_count]++
        }
    }
}

function shown(b) {
    if (b > 32 && b < 127) return "`" sprintf("%c", b) "`"
    if (b >= 128) return "the byte " b ", of a sign beyond ASCII"
    return "the byte " b
}

function is_lower(b) { return b >= 97 && b <= 122 }
function is_digit(b) { return b >= 48 && b <= 57 }
function is_upper(b) { return b >= 65 && b <= 90 }

# What a name lacks, or nothing.
function off_name(k,    i, b) {
    b = byte[from[k]]
    if (!is_lower(b)) return "a name begins with a letter of a-z, and `" word[k] "` begins with " shown(b)
    for (i = 1; i < width[k]; i++) {
        b = byte[from[k] + i]
        if (!is_lower(b) && !is_digit(b) && b != 45) {
            return "a name has only a-z, 0-9 and -, and `" word[k] "` has " shown(b) " as byte " i + 1
        }
    }
    if (width[k] > 24) return "a name has at most 24 bytes, and `" word[k] "` has " width[k]
    return ""
}
