# The words of a picture, as plain characters.

BEGIN {
    MOST_CHARS = 24     # of a text; of a longer one the first are shown
    MOST_TOLD = 100     # rows that the description tells
}

function heading() {
    if (verdict == "ACCEPT" || verdict == "REPLAYED")
        return verdict ": this world explains " counted(events, "event")
    if (verdict == "REJECT")
        return "REJECT " place ": with event " place " of " events " all explanations end"
    if (verdict == "INCONCLUSIVE")
        return "INCONCLUSIVE " place ": the budget of " budget " was passed at event " place " of " events
    if (verdict == "NOT LEGAL")
        return "NOT LEGAL " place ": no network brings about event " place " of this world"
    if (verdict == "NOT SERVER")
        return "NOT SERVER " place ": the server has no such step as event " place " of this world"
    if (verdict == "NOT EXCHANGE")
        return "NOT EXCHANGE " place ": event " place " of the exchange is not that of this world"
    return (has_world ? "A world with " : "An exchange with ") counted(events, "event") " of clients"
}

function counted(count, thing) {
    return count " " thing (count == 1 ? "" : "s")
}

# Above the line of a client's event.
function client_words(r) {
    if (word[r] == "<" || word[r] == ">")
        return shortened(said[r])
    if (word[r] == "gap")
        return said[r]
    return word[r] == "garbles" ? word[r] : ""
}

# Beside the line of the server. A text stands there where the client's end of the message is not drawn.
function server_words(r,   words, remark) {
    if (word[r] == "take" || word[r] == "send")
        words = word[r] " " conn[r] (is_drawn(far_end[r]) ? "" : " " shortened(said[r]))
    else if (word[r] == "pick")
        words = "pick " shortened(said[r])
    else if (word[r] == "arm" || word[r] == "test")
        words = event[r] (times[r] > 1 ? ", " times[r] " times" : "")
    if (is_marked(r))
        remark = note
    else if (is_marked(r - 1))
        remark = "after the verdict"
    return words (words != "" && remark != "" ? ": " : "") remark
}

# The first characters of a quotation, with no escape cut in two.
function shortened(quotation,   kept, next_one) {
    if (length(quotation) <= MOST_CHARS + 2)
        return quotation
    kept = 1
    while ((next_one = kept + spelled_length(quotation, kept + 1)) <= MOST_CHARS + 1)
        kept = next_one
    return substr(quotation, 1, kept) "\"..."
}

# How many characters spell the byte that is spelled from there on.
function spelled_length(quotation, start) {
    if (substr(quotation, start, 1) != "\\")
        return 1
    return substr(quotation, start + 1, 1) == "x" ? length("\\x00") : length("\\\\")
}

function description(   r, text) {
    text = "Time goes down. Clients are at the left, and the server at the right."
    for (r = first; r <= last && r < first + MOST_TOLD; r++)
        text = text " " told(r) (is_under_way(r) ? ", under way at the end" : "") (is_marked(r) ? ": " note : "") "."
    if (r <= last)
        text = text " And so on for " counted(last - r + 1, "row") "."
    return text
}

# A sentence without its point.
function told(r) {
    if (word[r] == "gap")
        return said[r]
    if (word[r] == ">" || word[r] == "<")
        return "Event " number[r] ": client " conn[r] (word[r] == ">" ? " sends " : " receives ") shortened(said[r])
    if (word[r] == "garbles")
        return "Event " number[r] ": what comes to client " conn[r] " begins no message"
    if (word[r] == "take" || word[r] == "send")
        return "The server " word[r] "s " shortened(said[r]) (word[r] == "take" ? " from" : " to") " client " conn[r]
    if (word[r] == "pick")
        return "The server picks " shortened(said[r])
    if (word[r] == "arm")
        return "The server goes on in " event[r]
    return "A test says " said[r] (times[r] > 1 ? ", " times[r] " times" : "")
}
