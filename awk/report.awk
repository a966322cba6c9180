# Reads a report and the text beside it, line by line, as docs/FORMATS.md spells them.
#
# What it leaves behind:
#   verdict, place       the report's first words, as REJECT and NOT LEGAL, and the number behind them
#   events, budget       the numbers behind these words, events also where only its text tells it
#   seen[1..events]      the events of clients, as lines; of a REJECT by itself the one that it names
#   world[1..steps]      all events of the world, as lines; none where there is an exchange alone
#   conns, end_of[C]     how many `conn` lines the report has, and the last word of each
#   has_world, has_all   whether it has a world, and whether it has all events of the clients

BEGIN {
    NUMBER = "(0|[1-9][0-9]*)"
    PLACE = "[1-9][0-9]*"
    CONN_AND_END = "([0-9]|1[0-5]) (done|idle|ended|failed|full|garbled|stopped|memory)"
    VERDICT = "(ACCEPT|(REJECT|INCONCLUSIVE) " PLACE ")"
    REPLAY = "(REPLAYED|NOT (LEGAL|SERVER|EXCHANGE) " PLACE ")"
    MOST_EVENTS = 4096    # of clients
    CLOSE = "."           # the line behind a text
    at = 0                # the line that was read last
    lines_before = 0      # how many lines stand before the text
    place = conns = steps = 0
    verdict = events = ""
    has_world = has_all = 0
}

function read_report() {
    if (line[1] ~ "^" VERDICT "$")
        read_judged()
    else if (line[1] ~ "^" REPLAY "$")
        read_replayed()
    else if (line[1] == "exchange 1")
        read_exchange()
    else if (line[1] == "world 1")
        read_world()
    else
        want(VERDICT, "a report that can be drawn begins otherwise")
    want("[.]", "nothing should follow")
}

# What `judge` prints. `run` and `test` print their exchange too.
function read_judged() {
    read_first_line()
    read_number_of_events()
    read_ends()
    if (conns > 0)
        read_exchange()
    if (verdict == "ACCEPT")
        read_world()
    else if (verdict == "REJECT")
        see(place, read_rest("event", ".*"))
    else
        budget = read_rest("budget", NUMBER)
}

function read_replayed() {
    read_first_line()
    if (verdict == "REPLAYED")
        read_number_of_events()
}

# Beside a verdict of `judge` an exchange may be named, and beside what `replay` prints a world.
function read_second_text() {
    lines_before = at
    if (is_replay())
        read_world()
    else if (verdict != "" && conns == 0)
        read_exchange()
    else
        stop("this report holds its events itself, so no second text is drawn")
    want("[.]", "nothing should follow")
}

function is_replay() {
    return verdict ~ /^(REPLAYED|NOT )/
}

function read_first_line() {
    verdict = line[++at]
    if (match(verdict, / [0-9]+$/)) {
        place = substr(verdict, RSTART + 1) + 0
        verdict = substr(verdict, 1, RSTART - 1)
    }
}

function read_number_of_events() {
    events = read_rest("events", NUMBER) + 0
    if (events > MOST_EVENTS)
        refuse("an exchange has at most " MOST_EVENTS " events")
    if (place > events)
        refuse("the first line names an event behind the last")
}

function read_ends(   words) {
    while (line[at + 1] ~ /^conn /) {
        split(read_rest("conn", CONN_AND_END), words, " ")
        if (words[1] != conns + 0)
            refuse("the connections should stand in order")
        end_of[conns++] = words[2]
    }
}

function read_exchange(   count) {
    want("exchange 1", "an exchange should begin here")
    while (line[++at] != "end") {
        if (!is_client_event(line[at]))
            refuse("this is no event of an exchange, and not its end")
        see(++count, line[at])
    }
    check_number(count + 0)
}

function read_world(   count) {
    want("world 1", "a world should begin here")
    while (line[++at] != "end") {
        world[++steps] = line[at]
        if (is_client_event(line[at]))
            see(++count, line[at])
        else if (!is_server_event(line[at]))
            refuse("this is no event of a world, and not its end")
    }
    has_world = 1
    check_number(count + 0)
}

# The report and its texts have to tell the same of event number i.
function see(i, text) {
    if (!is_client_event(text))
        refuse("this is no event of a client")
    if (i in seen && seen[i] != text)
        refuse("this is event " i ", which was told otherwise")
    seen[i] = text
}

function check_number(count) {
    if (events != "" && events != count)
        refuse("clients have " count " events here, and " events " by the report")
    if (count > MOST_EVENTS)
        refuse("clients have " count " events here, and may have " MOST_EVENTS)
    events = count
    has_all = 1
}

# Goes on to a line that begins with this word, and answers what stands behind it.
function read_rest(head, form) {
    return substr(want(head " " form, "a line \"" head " ..\" should stand here"), length(head) + 2)
}

# Goes on to the next line, which has to be of this form.
function want(form, otherwise) {
    if (line[++at] !~ "^" form "$")
        refuse(otherwise)
    return line[at]
}

function refuse(why) {
    if (line[at] == CLOSE)
        why = "the text ends too early"
    else if (at == NR)
        why = "no LF stands at the end of the last line"
    stop((lines_before > 0 ? "second text" : "report") ", line " (at - lines_before) ": " why)
}

# Connections and arms go up to 15.
function is_client_event(text) {
    if (!match(text, /^([0-9]|1[0-5]) /))
        return 0
    text = substr(text, RLENGTH + 1)
    return text == "garbles" || text ~ /^[<>] / && is_quotation(substr(text, 3))
}

function is_server_event(text) {
    if (text ~ /^(arm ([0-9]|1[0-5])|test (yes|no))$/)
        return 1
    if (!match(text, /^(pick|(take|send) ([0-9]|1[0-5])) /))
        return 0
    return is_quotation(substr(text, RLENGTH + 1))
}

# The escapes that the one spelling has are taken away. What is left may hold no other `"` and `\`, and nothing that does
# not print.
function is_quotation(text) {
    if (text !~ /^".*"$/ || text == "\"")
        return 0
    text = substr(text, 2, length(text) - 2)
    if (index(text, "\\") > 0)
        gsub(/\\(["\\]|x([01][0-9a-f]|7f|[89a-f][0-9a-f]))/, "", text)
    return text !~ /["\\]|[^ -~]/
}

# Whether the report and its texts hold what they name. A REJECT holds its one event.
function check_report() {
    if (!has_all && verdict != "REJECT")
        stop("this report holds no events: name the text of its " (is_replay() ? "world" : "exchange") " behind it")
    if (verdict ~ /^NOT (LEGAL|SERVER)$/ && place > steps || \
        verdict == "NOT SERVER" && !is_server_event(world[place]) || verdict == "NOT EXCHANGE" && place > events + 1)
        stop("the world has no event that " verdict " " place " may name")
}
