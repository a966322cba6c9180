# Whether a picture is one svg element of printable ASCII, all of whose tags are closed in order, with nothing in its
# texts that should have been an entity. Status 1 where not. No tag goes over the end of a line.

/[^ -~]/ { wrong = 1 }
NR == 1 && !/^<svg / { wrong = 1 }
{
    rest = $0
    while (match(rest, /<[^>]*>/)) {
        check_text(substr(rest, 1, RSTART - 1))
        check_tag(substr(rest, RSTART + 1, RLENGTH - 2))
        rest = substr(rest, RSTART + RLENGTH)
    }
    check_text(rest)
}
END { exit wrong || depth > 0 || NR == 0 }

function check_text(text) {
    gsub(/&(amp|lt|gt);/, "", text)
    if (text ~ /[<>&]/)
        wrong = 1
}

function check_tag(tag,   name) {
    name = tag
    sub(/[ \/].*/, "", name)
    if (tag ~ /^\//) {
        if (depth == 0 || open[depth] != substr(tag, 2))
            wrong = 1
        depth--
    } else if (tag !~ /\/$/)
        open[++depth] = name
    if (gsub(/'/, "", tag) % 2 != 0)
        wrong = 1
}
