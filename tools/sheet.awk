# Takes a sheet's bytes, as od writes them in hexadecimal, and prints its rows: each without blanks, a tab, its line's number, a tab, and its
# comment in brief. At the first byte that a sheet may not hold it says which, and fails. Set size to the number of bytes to come.
# It looks at bytes, not at lines: what awk takes for a line of a file with NUL bytes or carriage returns differs from one awk to the next.
# Two hexadecimal digits are compared as texts, which is the bytes' own order.

BEGIN {
    for (i = 1; i < 256; i++) character[sprintf("%02x", i)] = sprintf("%c", i)
    name["00"] = "a NUL byte"
    name["07"] = "a bell"
    name["08"] = "a backspace"
    name["0b"] = "a vertical tab"
    name["0c"] = "a form feed"
    name["1a"] = "a control-Z"
    name["1b"] = "an escape"
    name["7f"] = "a delete"
    brief = 60
    line = 1
}

function stop(what) {
    print "line " line ": " what >"/dev/stderr"
    stopped = 1
    exit 1
}

function stop_at(byte, what) { stop("byte " place " is " byte ", " what) }

function stop_behind(what) { stop("from byte " first " on stands " bytes ", " what) }

function control(byte) { return (byte in name) ? name[byte] : "a control character" }

# Names the encodings that no byte by itself tells: by their marks, and by where NUL bytes stand among the first four.
function look_at_beginning(a, b, c, d,  nuls, four) {
    four = a " " b " " c " " d
    nuls = (a == "00") (b == "00") (c == "00") (d == "00")
    if (four ~ /^ef bb bf/) stop("the file begins with ef bb bf, a UTF-8 byte order mark; save it without")
    if (four == "ff fe 00 00" || four == "00 00 fe ff" || nuls == "0111" || nuls == "1110") foreign(four, "UTF-32")
    if (four ~ /^(ff fe|fe ff)/ || nuls == "0101" || nuls == "1010") foreign(a " " b, "UTF-16")
}

function foreign(bytes, encoding) {
    stop("the file begins with " bytes ": it is " encoding "; save it as ASCII, or as UTF-8 without a byte order mark")
}

function take(byte) {
    total++
    if (returned) {
        if (byte != "0a") stop_at("0d", "a carriage return that no line feed follows")
        returned = 0
    }
    place++
    if (missing) go_on(byte)
    else if (byte == "0a") end_line()
    else if (byte == "0d") returned = 1
    else if (comment) take_comment(byte)
    else take_row(byte)
}

function take_row(byte) {
    if (byte == "20" || byte == "09") return
    if (byte == "23") comment = 1
    else if (byte > "20" && byte < "7f") {
        printf "%s", character[byte]
        row = 1
    }
    else if (byte == "ef" && place == 1) stop_at(byte, "with which a UTF-8 byte order mark begins; it has no place in a sheet")
    else if (byte > "7f") stop_at(byte, "no ASCII; only a comment may hold other text")
    else stop_at(byte, control(byte))
}

function take_comment(byte) {
    if (byte == "09") keep(" ")
    else if (byte >= "20" && byte < "7f") keep(character[byte])
    else if (byte > "7f") begin(byte)
    else stop_at(byte, control(byte))
}

# Keeps as much of a comment as is shown.
function keep(text) {
    if (note == "" && text == " ") return
    if (kept < brief) note = note text
    else if (text != " ") more = " .."
    kept++
}

# The first byte of a character of UTF-8 tells how many follow, and the least and the greatest that the next may be.
function begin(byte) {
    if (byte < "c2" || byte > "f4") stop_at(byte, "and there the comment is no UTF-8")
    missing = byte < "e0" ? 1 : byte < "f0" ? 2 : 3
    least = byte == "e0" ? "a0" : byte == "f0" ? "90" : "80"
    greatest = byte == "ed" ? "9f" : byte == "f4" ? "8f" : "bf"
    first = place
    bytes = byte
    text = character[byte]
}

function go_on(byte) {
    bytes = bytes " " byte
    text = text character[byte]
    if (byte < least || byte > greatest) stop_behind("and there the comment is no UTF-8")
    least = "80"
    greatest = "bf"
    if (--missing) return
    if (bytes ~ /^c2 [89]/) stop_behind("a control character in UTF-8")
    if (bytes == "e2 80 a8" || bytes == "e2 80 a9") stop_behind("a line or paragraph separator in UTF-8")
    keep(text)
}

function end_line() {
    sub(/ +$/, "", note)
    if (row) printf "\t%d\t%s\n", line, note more
    row = comment = kept = place = 0
    note = more = ""
    line++
}

NR == 1 { look_at_beginning($1, $2, $3, $4) }

{ for (i = 1; i <= NF; i++) take($i) }

END {
    if (stopped) exit 1
    if (total != size) stop("the file could not be read whole")
    if (returned) stop_at("0d", "a carriage return that no line feed follows")
    if (missing) stop_behind("and there the file ends within a character of UTF-8")
    if (place) end_line()
}
