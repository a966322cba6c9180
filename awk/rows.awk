# Lays the events out in rows, time going down: a row for each event, and one for all tests in a row that say the same.
#
# What it leaves behind, for each row r from 1 to rows:
#   event[r]       its line
#   word[r]        what happened: > < garbles take send arm test pick; or gap, where the report has no events
#   conn[r]        the connection, where there is one
#   said[r]        what stands behind these in the line; for a gap a sentence
#   times[r]       how many tests the row stands for
#   number[r]      which event of the clients it is, where it is one
#   far_end[r]     of a message, the row of its other end, or "" where it has none
# and
#   occurs[C]      whether anything happens on connection C
#   marked, note   the row that the report speaks of, and what it says of it
#   first, last    the rows that are drawn

BEGIN {
    NOTE["REJECT"] = "nothing explains this"
    NOTE["INCONCLUSIVE"] = "budget passed"
    NOTE["NOT LEGAL"] = "not legal"
    NOTE["NOT SERVER"] = "no step of the server"
    NOTE["NOT EXCHANGE"] = "not so in the exchange"
    rows = numbered = 0
    marked = note = ""
}

function lay_rows(   i) {
    for (i = 0; i < conns; i++)
        occurs[i] = 1
    if (has_world)
        lay_world()
    else if (has_all)
        for (i = 1; i <= events; i++)
            lay_event(seen[i])
    else
        lay_one_event()
    mark_row()
}

function lay_world(   i, is_named) {
    for (i = 1; i <= steps; i++) {
        is_named = i == place && verdict ~ /^NOT (LEGAL|SERVER)$/
        if (is_named || world[i] !~ /^test / || world[i] != event[rows] || rows == marked)
            lay_event(world[i])
        else
            times[rows]++
        if (is_named)
            marked = rows
    }
}

# Of a REJECT whose exchange is not known.
function lay_one_event() {
    lay_gap(1, place - 1)
    numbered = place - 1
    lay_event(seen[place])
    lay_gap(place + 1, events)
}

function lay_gap(start, stop_at) {
    if (start <= stop_at)
        lay_note((start == stop_at ? "Event " start " is" : "Events " start " to " stop_at " are") " not in this report")
}

function lay_note(sentence) {
    word[++rows] = "gap"
    event[rows] = said[rows] = sentence
}

function lay_event(text,   words) {
    event[++rows] = text
    times[rows] = 1
    far_end[rows] = ""
    split(text, words, " ")
    if (text ~ /^[0-9]/) {
        number[rows] = ++numbered
        row_of[numbered] = rows
        conn[rows] = words[1]
        word[rows] = words[2]
        said[rows] = behind_words(text, 2)
    } else {
        word[rows] = words[1]
        if (words[1] == "take" || words[1] == "send")
            conn[rows] = words[2]
        said[rows] = behind_words(text, rows in conn ? 2 : 1)
    }
    if (rows in conn)
        occurs[conn[rows]] = 1
    lay_message()
}

function behind_words(text, count) {
    while (count-- > 0)
        text = substr(text, index(text " ", " ") + 1)
    return text
}

# On each connection messages arrive in the order in which they were sent, each way.
function lay_message() {
    if (word[rows] == ">")
        put_in("up " conn[rows])
    else if (word[rows] == "take")
        take_out("up " conn[rows])
    else if (word[rows] == "send")
        put_in("down " conn[rows])
    else if (word[rows] == "<")
        take_out("down " conn[rows])
}

function put_in(queue) {
    waiting[queue, ++sent[queue]] = rows
}

# In a world that is not legal something may arrive that was never sent: then it has no other end.
function take_out(queue,   start) {
    if (arrived[queue] + 0 == sent[queue] + 0)
        return
    start = waiting[queue, arrived[queue] + 1]
    if (said[start] != said[rows])
        return
    arrived[queue]++
    far_end[start] = rows
    far_end[rows] = start
}

function mark_row() {
    if (!(verdict in NOTE))
        return
    note = NOTE[verdict]
    if (verdict == "NOT EXCHANGE" && place > events)
        lay_note("There is no event " place)
    if (marked == "")
        marked = place in row_of ? row_of[place] : rows
}

# The part is counted in events of the clients, each with what the server did since the one before.
function choose_part() {
    if (from > to)
        stop("--from " from " is behind --to " to)
    if (!has_all && (place < from || place > to))
        stop("the report holds event " place " alone")
    if (from > events && from > 1)
        stop("--from " from " is behind the last event, which is " events)
    first = from > 1 && has_all ? row_of[from - 1] + 1 : 1
    last = to < events && has_all ? row_of[to] : rows
}

function is_drawn(r) {
    return r != "" && first <= r && r <= last
}

function is_marked(r) {
    return marked != "" && r == marked
}

# Of an exchange by itself it is not known whether a message is under way at the end.
function is_under_way(r) {
    return has_world && (word[r] == ">" || word[r] == "send") && far_end[r] == ""
}
