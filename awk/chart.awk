# The course of a drawing: all lines are read, then understood, then laid out, and only then drawn, so that a refusal
# leaves nothing on standard output.
#
# Given: texts, how many texts come, each closed by a line with a dot; from and to, the events that are to be drawn.

{ line[NR] = $0 }

END {
    read_report()
    if (texts > 1)
        read_second_text()
    check_report()
    lay_rows()
    choose_part()
    draw()
}

# One line on standard error, and status 2.
function stop(why) {
    print "chart: " why | "cat >&2"
    close("cat >&2")
    exit 2
}
