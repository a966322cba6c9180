# Tells each message of a picture in a line: the rows of its start and of its end, ? where it has none, and its title. Of
# an exchange by itself both are the row of the client. It is for pictures in which the names stand only once.

BEGIN {
    FIRST_LINE = 127    # where row 1 stands, and how far it is to the next
    ROW = 24
}

/^<g class='message/ {
    title = $0
    sub(/.*<title>/, "", title)
    sub(/<\/title>.*/, "", title)
    gsub(/&lt;/, "<", title)
    gsub(/&gt;/, ">", title)
    gsub(/&amp;/, "\\&", title)
    path = $0
    sub(/.* d='/, "", path)
    sub(/'.*/, "", path)
    start = $0 ~ /^<g class='[a-z ]*unsent/ ? "?" : row_behind("M", path)
    arrival = path ~ /l[^H]*$/ ? "?" : path ~ /L/ ? row_behind("L", path) : start
    print start, arrival, title
}

# The row of the point that stands in the path behind this letter.
function row_behind(letter, path,   point) {
    split(substr(path, index(path, letter) + 1), point, "[^0-9]")
    return (point[2] - FIRST_LINE) / ROW + 1
}
