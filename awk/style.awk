# How the picture looks, in light and in dark surroundings. Nothing is told by colour alone: the marked row has a frame,
# a heavy line and words, and what is under way is dotted.

function draw_style() {
    print "<style>"
    print "text{font-family:ui-monospace,SFMono-Regular,Menlo,Consolas,'DejaVu Sans Mono',monospace;font-size:12px}"
    print ".heading{font-size:14px;font-weight:bold}"
    print ".name,.number{font-size:11px;text-anchor:middle}"
    print ".line,.mark,.ring,.box,.strip,.frame{stroke-width:1.2}"
    print ".box{rx:4px}"
    print ".message path{fill:none}"
    put_message_style(".message", "", 1.3)
    put_message_style(".later", "-later", 1.3)
    put_message_style(".marked", "-marked", 3)
    print ".marked text,text.marked{font-weight:bold}"
    print ".unseen path{marker-start:none}"
    print ".unsent path{marker-start:url(#ring)}"
    print ".under-way path{stroke-width:2;stroke-linecap:round;stroke-dasharray:0.1 4}"
    put_colours("#ffffff", "#1f2328", "#59636e", "#8c959f", "#eef1f4")
    if (verdict == "INCONCLUSIVE")
        put_marked_colours("#7a4d00", "#fff3d1")
    else
        put_marked_colours("#b42318", "#fdeceb")
    print "@media (prefers-color-scheme:dark){"
    put_colours("#0d1117", "#e6edf3", "#9da7b3", "#6e7681", "#1c232d")
    if (verdict == "INCONCLUSIVE")
        put_marked_colours("#f2c14e", "#33260a")
    else
        put_marked_colours("#ff9492", "#3d1416")
    print "}"
    print "</style>"
    put_ends("")
    put_ends("-later")
    put_ends("-marked")
    print "<marker id='ring' markerUnits='userSpaceOnUse' markerWidth='8' markerHeight='8' refX='4' refY='4'>" \
        "<circle class='ring' cx='4' cy='4' r='3'/></marker>"
}

function put_message_style(class, kind, heaviness) {
    print class " path{stroke-width:" heaviness ";marker-start:url(#dot" kind ");marker-end:url(#head" kind ")}"
}

function put_colours(paper, ink, dim, line_colour, strip_colour) {
    print ".paper,.box,.ring{fill:" paper "}"
    print ".strip{fill:" strip_colour "}"
    print ".line,.box,.strip.unseen{stroke:" line_colour "}"
    print "text,.mark,#head,#dot{fill:" ink "}"
    print ".message path,.mark,.ring{stroke:" ink "}"
    print ".mark.ring{fill:" paper "}"
    print ".dim,.later text,text.later,#head-later,#dot-later{fill:" dim "}"
    print ".later path{stroke:" dim "}"
}

function put_marked_colours(ink, paper) {
    print ".frame{fill:" paper "}"
    print ".frame,.marked path{stroke:" ink "}"
    print ".marked text,text.marked,#head-marked,#dot-marked{fill:" ink "}"
}

# The two ends of a message. The tip of its line is the tip of the head.
function put_ends(kind) {
    print "<marker id='dot" kind "' markerUnits='userSpaceOnUse' markerWidth='6' markerHeight='6' refX='3' refY='3'>" \
        "<circle cx='3' cy='3' r='3'/></marker>"
    print "<marker id='head" kind "' markerUnits='userSpaceOnUse' markerWidth='10' markerHeight='8' refX='10' refY='4'" \
        " orient='auto'><path d='M0 0L10 4L0 8Z'/></marker>"
}
