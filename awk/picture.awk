# Draws the rows. Clients stand at the left, and the server at the right, with the words of its events beside its line. A
# message is level at its client's end, in the row of the client's event, with its text above it in a column of its own.
# It slants only in the strip between that column and the server's line, which stands for the network. So level lines and
# texts of different rows never meet, and where messages overtake each other their lines cross in the strip.
#
# Of an exchange by itself nobody knows when the server took or sent. There the strip stands for network and server, and
# messages begin and end at its edge.

BEGIN {
    # All in pixels, but for the two that count.
    MARGIN = 16
    HEADING_Y = 28
    HEADING_CHAR = 8.75     # the width of a character of the heading, with some to spare
    PART_Y = 46
    HEADING = 54
    NAMES = 56              # a row of names
    NAMES_EVERY = 40        # rows, and then the names stand again
    NAME_WIDTH = 50
    NAME_HEIGHT = 38
    NAME_UP = 3             # the two lines of a name, from its middle
    NAME_DOWN = 12
    MOST_CONNS = 16
    ROW = 24
    TOP = 17                # what a row has above its line
    CHAR = 7.5              # the width of any other character
    PAD = 10                # between a line and the words beside it
    RAISED = 5              # words above a line
    LOWERED = 4             # words beside a line
    NUMBERS = 30            # the column of the numbers of events
    LINE_GAP = 60           # from one client's line to the next
    STRIP = 130
    SHORT = 62              # how far into the strip a message goes that has no other end
    SHORT_DOWN = 14
    JAG = 5                 # of a zigzag
    MARK = 5                # half a mark
    FOOT = 20               # a line of words below the rows
}

function draw() {
    measure()
    draw_head()
    draw_lines()
    draw_messages()
    draw_rows()
    draw_names()
    draw_foot()
    print "</svg>"
}

# Where things stand

function measure(   c, r, client_chars, server_chars) {
    client_words_x = MARGIN + NUMBERS
    for (c = 0; c < MOST_CONNS; c++)
        if (c in occurs) {
            client[++clients] = c
            x_of[c] = client_words_x + LINE_GAP / 2
            client_words_x += LINE_GAP
        }
    for (r = first; r <= last; r++) {
        client_chars = greater(client_chars, length(client_words(r)))
        server_chars = greater(server_chars, length(server_words(r)))
        has_dotted = has_dotted || is_under_way(r)
    }
    strip_x = client_words_x + int(client_chars * CHAR) + PAD
    server_x = strip_x + STRIP
    server_words_x = server_x + MARK + PAD
    width = greater(server_words_x + int(server_chars * CHAR), MARGIN + int(length(heading()) * HEADING_CHAR)) + MARGIN
    rows_y = HEADING + NAMES
    repeats = int((last - first + 1 - NAMES_EVERY / 2) / NAMES_EVERY)
    bottom_y = (first > last ? rows_y : y_of(last)) + ROW
    has_ends = conns > 0 && last == rows
    height = bottom_y + (has_ends + has_dotted) * FOOT + MARGIN
}

function greater(a, b) {
    return a > b ? a : b
}

# The line on which a row stands, also of one that is not drawn.
function y_of(r,   names_above) {
    names_above = int((r - first) / NAMES_EVERY)
    if (names_above > repeats)
        names_above = repeats
    return rows_y + (r - first) * ROW + names_above * NAMES + TOP
}

function class_of(r) {
    return marked == "" || r < marked ? "" : r == marked ? " marked" : " later"
}

# What surrounds the rows

function draw_head() {
    print "<svg xmlns='http://www.w3.org/2000/svg' width='" width "' height='" height "'" \
        " viewBox='0 0 " width " " height "' role='img' aria-labelledby='chart-title chart-desc' xml:space='preserve'>"
    print "<title id='chart-title'>" xml(heading()) "</title>"
    print "<desc id='chart-desc'>" xml(description()) "</desc>"
    draw_style()
    print "<clipPath id='rows'>"
    put_rect("rows", 0, rows_y, width, bottom_y - rows_y - RAISED)
    print "</clipPath>"
    put_rect("paper", 0, 0, width, height)
    put_words("heading", MARGIN, HEADING_Y, heading())
    if (first > 1 || last < rows)
        put_words("dim", MARGIN, PART_Y, "events " from " to " (to < events ? to : events))
}

function draw_lines(   i) {
    put_rect("strip" (has_world ? "" : " unseen"), strip_x, HEADING, STRIP, bottom_y - HEADING)
    for (i = 1; i <= clients; i++)
        put_line(x_of[client[i]])
    if (has_world)
        put_line(server_x)
    if (is_drawn(marked))
        put_rect("frame", MARGIN / 2, y_of(marked) - TOP, width - MARGIN, ROW)
}

# Above the rows, and again between them where they are many.
function draw_names(   i, n, y) {
    for (n = 0; n <= repeats; n++) {
        y = y_of(first + n * NAMES_EVERY) - TOP - NAMES / 2
        for (i = 1; i <= clients; i++)
            put_name(x_of[client[i]], y, "client", client[i])
        if (has_world)
            put_name(server_x, y, "server", "")
    }
    y = HEADING + NAMES / 2
    put_words("name dim", strip_x + STRIP / 2, y - NAME_UP, has_world ? "network" : "network and")
    if (!has_world)
        put_words("name dim", strip_x + STRIP / 2, y + NAME_DOWN, "server, not seen")
}

function put_name(x, y, upper, lower) {
    put_rect("box", x - NAME_WIDTH / 2, y - NAME_HEIGHT / 2, NAME_WIDTH, NAME_HEIGHT)
    put_words("name", x, lower == "" ? y + LOWERED : y - NAME_UP, upper)
    if (lower != "")
        put_words("name", x, y + NAME_DOWN, lower)
}

function draw_foot(   i, y) {
    y = bottom_y
    if (has_ends) {
        y += FOOT
        for (i = 1; i <= clients; i++)
            if (client[i] in end_of)
                put_words("name", x_of[client[i]], y - RAISED, end_of[client[i]])
    }
    if (has_dotted)
        put_words("dim", MARGIN, y + FOOT - RAISED, "dotted: under way at the end")
}

# The rows

# Also messages between two rows that are not drawn, as far as they pass those that are.
function draw_messages(   r) {
    print "<g clip-path='url(#rows)'>"
    for (r = 1; r <= rows; r++)
        if (word[r] == ">")
            draw_message(r, far_end[r], r, "message", path_up(r, far_end[r]))
        else if (word[r] == "send")
            draw_message(r, far_end[r], far_end[r], "message", path_down(far_end[r], r))
        else if (word[r] == "take" && far_end[r] == "")
            draw_message("", r, "", "message unsent", path_up("", r))
        else if (word[r] == "<" && far_end[r] == "")
            draw_message("", r, r, "message " (has_world ? "unsent" : "unseen"), path_down(r, ""))
        else if (word[r] == "garbles")
            draw_message("", r, r, "message unseen", path_garbled(r))
    print "</g>"
}

# From one row to another, at_client being that of the two which is the client's. A row that there is not is "".
function draw_message(start, arrival, at_client, class, path,   row) {
    row = start == "" ? arrival : start
    if (row > last || (arrival == "" ? start : arrival) < first)
        return
    class = class (is_marked(arrival) ? class_of(arrival) : class_of(row)) (is_under_way(row) ? " under-way" : "")
    print "<g class='" class "'><title>" xml(event[at_client == "" ? row : at_client]) "</title><path d='" path "'/>"
    if (is_drawn(at_client))
        put_words("", client_words_x, y_of(at_client) - RAISED, client_words(at_client))
    print "</g>"
}

# From the client to the server. An end that there is not lies in the strip, a little later or earlier than the other.
function path_up(at_client, at_server,   path) {
    if (at_client == "")
        path = "M" (server_x - SHORT) " " (y_of(at_server) - SHORT_DOWN)
    else
        path = "M" x_of[conn[at_client]] " " y_of(at_client) "H" strip_x
    if (!has_world)
        return path
    return path (at_server == "" ? "l" SHORT " " SHORT_DOWN : "L" server_x " " y_of(at_server))
}

function path_down(at_client, at_server,   path) {
    if (!has_world)
        return "M" strip_x " " y_of(at_client) "H" x_of[conn[at_client]]
    if (at_server == "")
        path = "M" (strip_x + SHORT) " " (y_of(at_client) - SHORT_DOWN)
    else
        path = "M" server_x " " y_of(at_server)
    if (at_client == "")
        return path "l" (-SHORT) " " SHORT_DOWN
    return path "L" strip_x " " y_of(at_client) "H" x_of[conn[at_client]]
}

# A zigzag in the strip.
function path_garbled(r,   jags) {
    jags = "l" (-JAG) " " JAG "l" (-JAG) " " (-2 * JAG) "l" (-JAG) " " (2 * JAG) "l" (-JAG) " " (-JAG)
    return "M" (strip_x + SHORT) " " y_of(r) "H" (strip_x + SHORT / 2) jags "H" x_of[conn[r]]
}

function draw_rows(   r, y, words) {
    for (r = first; r <= last; r++) {
        y = y_of(r)
        words = server_words(r)
        if (r in number)
            put_words("number dim" class_of(r), MARGIN + NUMBERS / 2, y + LOWERED, number[r])
        if (word[r] == "gap")
            put_words("dim" class_of(r), client_words_x, y - RAISED, said[r])
        if (words != "")
            draw_server_event(r, y, words)
    }
}

# The choices of the server have marks: an arm a diamond, a test a disc, or a ring where it says no, and a pick a square.
function draw_server_event(r, y, words,   class, edges) {
    class = word[r] == "take" || word[r] == "send" ? "dim" : ""
    print "<g><title>" xml(event[r]) "</title>"
    if (word[r] == "arm") {
        edges = "l" MARK " " MARK "l" (-MARK) " " MARK
        print "<path class='mark' d='M" server_x " " (y - MARK) edges "l" (-MARK) " " (-MARK) "Z'/>"
    } else if (word[r] == "test")
        print "<circle class='mark" (said[r] == "no" ? " ring" : "") "' cx='" server_x "' cy='" y "' r='" MARK "'/>"
    else if (word[r] == "pick")
        put_rect("mark", server_x - MARK, y - MARK, 2 * MARK, 2 * MARK)
    put_words(class class_of(r), server_words_x, y + LOWERED, words)
    print "</g>"
}

# Pieces

function put_words(class, x, y, words) {
    print "<text" (class == "" ? "" : " class='" class "'") " x='" x "' y='" y "'>" xml(words) "</text>"
}

function put_rect(class, x, y, wide, high) {
    print "<rect class='" class "' x='" x "' y='" y "' width='" wide "' height='" high "'/>"
}

function put_line(x) {
    print "<path class='line' d='M" x " " (HEADING + NAMES / 2) "V" bottom_y "'/>"
}

function xml(text) {
    if (text !~ /[&<>]/)
        return text
    gsub(/&/, "\\&amp;", text)
    gsub(/</, "\\&lt;", text)
    gsub(/>/, "\\&gt;", text)
    return text
}
