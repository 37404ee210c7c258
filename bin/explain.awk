# Says what a refusal means, where it stands in the input, and what is wrong there as far as the bytes tell it for certain. For all programs; needs LC_ALL=C.
# The input comes on standard input, each NUL of it as the byte 1. The environment has PROGRAM, LABEL (how the input is called), KIND (text, xml, jcal),
# NUMBER and PLACE of the refusal, SIZE of the input, and BYTES, up to four from the place on in hexadecimal.

# ---- what the numbers mean: as in the manual, man/man1/to-xml.1

function meanings() {
    meaning[1] = "LENGTH: the input is longer than 65,535 bytes"
    meaning[2] = "WORK: the work room is shorter than the input; the programs always lend enough"
    meaning[3] = "CHARACTER: these bytes are not UTF-8, or are below U+0020 other than TAB, CR and LF, or one of U+007F, U+FFFE and U+FFFF"
    meaning[4] = "LINE: this line is not of the form NAME;PARAMETER=value:value, is empty, holds a bare CR or LF, or is not ended by CR LF"
    meaning[5] = "NAME: this line, tag or bracket has a name that can't be carried: it begins with a digit, a hyphen or XML; in xCal and jCal also one with capital letters, a property begin or end, and a parameter value"
    meaning[6] = "FRAME: this line or tag, text between tags, or array or value may not stand here; or something that must come is missing up to here, or still open"
    meaning[7] = "PARAMETER: this parameter is not permitted here, comes again, or has a bad value; or this value needs ENCODING=BASE64"
    meaning[8] = "VALUE: this value is not of a type permitted here"
    meaning[9] = "COUNT: the component that ends here lacks a property or has one too often, has one without its partner or two that exclude each other, or is a time zone with neither STANDARD nor DAYLIGHT"
    meaning[10] = "ROOM: the result is longer than the room for it; the programs lend enough for every result"
    meaning[11] = "XML: this tag, reference or character is not XML that is read (no comments, CDATA, prefixes, document types, nor attributes but the root's namespace; at most 32 open elements), or an element is still open at the end"
    meaning[12] = "JSON: no JSON text can go on with this byte, or ends here; or this escape names a character that may not stand there, or this bracket opens a 33rd array or object"
    meaning[13] = "EDITION: the call names an edition other than 0 and 1; the programs always name edition 0"
}

# ---- the schema: property_table of crates/schema/specs/Properties.antt, to which tools/check-programs holds it

# A row: name; how often it stands in VCALENDAR, VEVENT, VTODO, VJOURNAL, VFREEBUSY, VTIMEZONE, STANDARD, DAYLIGHT and in a VALARM of AUDIO, DISPLAY, EMAIL (1 once,
# ? at most once, * any number of times, + at least once, a point where it may not stand); whether it has one value or several; types; parameters.
function row(text, f) {
    split(text, f, " ")
    property[++properties] = f[1]
    signs[f[1]] = f[2]
    listed[f[1]] = f[3] == "several"
    types[f[1]] = f[4]
    permitted[f[1]] = f[5]
}

function schema(k, n, w) {
    row("ACTION ........111 one TEXT -")
    row("ATTACH .***....?.* one URI,BINARY FMTTYPE,ENCODING")
    row("ATTENDEE .****.....+ one CAL-ADDRESS CUTYPE,MEMBER,ROLE,PARTSTAT,RSVP,DELEGATED-TO,DELEGATED-FROM,SENT-BY,CN,DIR,LANGUAGE")
    row("CALSCALE ?.......... one TEXT -")
    row("CATEGORIES .***....... several TEXT LANGUAGE")
    row("CLASS .???....... one TEXT -")
    row("COMMENT .****.**... one TEXT ALTREP,LANGUAGE")
    row("COMPLETED ..?........ one DATE-TIME -")
    row("CONTACT .***?...... one TEXT ALTREP,LANGUAGE")
    row("CREATED .???....... one DATE-TIME -")
    row("DESCRIPTION .???.....11 one TEXT ALTREP,LANGUAGE")
    row("DTEND .?..?...... one DATE-TIME,DATE TZID")
    row("DTSTAMP .1111...... one DATE-TIME -")
    row("DTSTART .????.11... one DATE-TIME,DATE TZID")
    row("DUE ..?........ one DATE-TIME,DATE TZID")
    row("DURATION .??.?...??? one DURATION -")
    row("EXDATE .***....... several DATE-TIME,DATE TZID")
    row("FREEBUSY ....*...... several PERIOD FBTYPE")
    row("GEO .??........ one FLOAT -")
    row("LAST-MODIFIED .???.?..... one DATE-TIME -")
    row("LOCATION .??........ one TEXT ALTREP,LANGUAGE")
    row("METHOD ?.......... one TEXT -")
    row("ORGANIZER .????...... one CAL-ADDRESS CN,DIR,SENT-BY,LANGUAGE")
    row("PERCENT-COMPLETE ..?........ one INTEGER -")
    row("PRIORITY .??........ one INTEGER -")
    row("PRODID 1.......... one TEXT -")
    row("RDATE .***..**... several DATE-TIME,DATE,PERIOD TZID")
    row("RECURRENCE-ID .???....... one DATE-TIME,DATE TZID,RANGE")
    row("RELATED-TO .***....... one TEXT RELTYPE")
    row("REPEAT ........??? one INTEGER -")
    row("REQUEST-STATUS .****...... one TEXT LANGUAGE")
    row("RESOURCES .**........ several TEXT ALTREP,LANGUAGE")
    row("RRULE .???..??... one RECUR -")
    row("SEQUENCE .???....... one INTEGER -")
    row("STATUS .???....... one TEXT -")
    row("SUMMARY .???......1 one TEXT ALTREP,LANGUAGE")
    row("TRANSP .?......... one TEXT -")
    row("TRIGGER ........111 one DURATION,DATE-TIME RELATED")
    row("TZID .....1..... one TEXT -")
    row("TZNAME ......**... one TEXT LANGUAGE")
    row("TZOFFSETFROM ......11... one UTC-OFFSET -")
    row("TZOFFSETTO ......11... one UTC-OFFSET -")
    row("TZURL .....?..... one URI -")
    row("UID .1111...... one TEXT -")
    row("URL .????...... one URI -")
    row("VERSION 1.......... one TEXT -")
    n = split("VCALENDAR VEVENT VTODO VJOURNAL VFREEBUSY VTIMEZONE STANDARD DAYLIGHT VALARM", w, " ")
    for (k = 1; k <= n; k++) column[w[k]] = k
    inside["VCALENDAR"] = " VEVENT VTODO VJOURNAL VFREEBUSY VTIMEZONE "
    inside["VEVENT"] = inside["VTODO"] = " VALARM "
    inside["VTIMEZONE"] = " STANDARD DAYLIGHT "
    n = split("BINARY BOOLEAN CAL-ADDRESS DATE DATE-TIME DURATION FLOAT INTEGER PERIOD RECUR TEXT TIME URI UTC-OFFSET", w, " ")
    for (k = 1; k <= n; k++) is_type[w[k]] = 1
    n = split("ALTREP CN CUTYPE DELEGATED-FROM DELEGATED-TO DIR ENCODING FMTTYPE FBTYPE LANGUAGE MEMBER PARTSTAT RANGE RELATED RELTYPE ROLE RSVP SENT-BY TZID", w, " ")
    for (k = 1; k <= n; k++) is_parameter[w[k]] = 1
    n = split("ALTREP DELEGATED-FROM DELEGATED-TO DIR MEMBER SENT-BY", w, " ")
    for (k = 1; k <= n; k++) is_quoted[w[k]] = 1
    is_listed["DELEGATED-FROM"] = is_listed["DELEGATED-TO"] = is_listed["MEMBER"] = 1
    words["CALSCALE"] = "GREGORIAN"
    words["VERSION"] = "2.0"
    words["CLASS"] = "PUBLIC PRIVATE CONFIDENTIAL"
    words["TRANSP"] = "OPAQUE TRANSPARENT"
    words["ACTION"] = "AUDIO DISPLAY EMAIL"
    words["STATUS of VEVENT"] = "TENTATIVE CONFIRMED CANCELLED"
    words["STATUS of VTODO"] = "NEEDS-ACTION COMPLETED IN-PROCESS CANCELLED"
    words["STATUS of VJOURNAL"] = "DRAFT FINAL CANCELLED"
    words["CUTYPE"] = "INDIVIDUAL GROUP RESOURCE ROOM UNKNOWN"
    words["ENCODING"] = "8BIT BASE64"
    words["FBTYPE"] = "FREE BUSY BUSY-UNAVAILABLE BUSY-TENTATIVE"
    words["PARTSTAT"] = "NEEDS-ACTION ACCEPTED DECLINED TENTATIVE DELEGATED COMPLETED IN-PROCESS"
    words["RANGE"] = "THISANDFUTURE"
    words["RELATED"] = "START END"
    words["RELTYPE"] = "PARENT CHILD SIBLING"
    words["ROLE"] = "CHAIR REQ-PARTICIPANT OPT-PARTICIPANT NON-PARTICIPANT"
    words["RSVP"] = "TRUE FALSE" # from here on none of the schema's sets
    words["part of a rule"] = "FREQ UNTIL COUNT INTERVAL BYSECOND BYMINUTE BYHOUR BYDAY BYMONTHDAY BYYEARDAY BYWEEKNO BYMONTH BYSETPOS WKST"
    words["FREQ"] = "SECONDLY MINUTELY HOURLY DAILY WEEKLY MONTHLY YEARLY"
}

# ---- words and lines for people

function tell(sentence) {
    print "    " sentence
}

function blanks(n, s, k) {
    for (k = 0; k < n; k++) s = s " "
    return s
}

# The letter at the front of s: `unit` is how many bytes it has, `looks` how it is shown, `wide` how many columns that takes.
# Controls, bytes that are not UTF-8 and what would turn a line about are shown by their numbers.
function letter(s, b, n, k, c, point) {
    b = ord[substr(s, 1, 1)]
    unit = wide = 1
    looks = substr(s, 1, 1)
    if (b >= 32 && b < 127) return
    n = b < 194 ? 0 : b < 224 ? 2 : b < 240 ? 3 : b < 245 ? 4 : 0
    point = n == 2 ? b - 192 : n == 3 ? b - 224 : b - 240
    for (k = 2; k <= n; k++) {
        c = ord[substr(s, k, 1)]
        if (c < 128 || c > 191) { n = 0; break }
        point = point * 64 + c - 128
    }
    if (n == 3 && (point < 2048 || point >= 55296 && point < 57344) || n == 4 && (point < 65536 || point > 1114111)) n = 0
    if (!n) {
        looks = b == 9 ? "<TAB>" : b == 10 ? "<LF>" : b == 13 ? "<CR>" : sprintf("<%02X>", b)
        wide = length(looks)
        return
    }
    unit = n
    looks = substr(s, 1, n)
    if (among(point, "128-159 8203-8207 8232-8238 8294-8297 65279-65279 65534-65535")) {
        looks = sprintf("<U+%04X>", point)
        wide = length(looks)
    } else if (among(point, "768-879 8400-8447 65024-65039")) wide = 0
    else if (among(point, "4352-4447 11904-42191 44032-55203 63744-64255 65072-65135 65280-65376 127744-129791 131072-262143")) wide = 2
}

function among(x, ranges, n, range, k, end) {
    n = split(ranges, range, " ")
    for (k = 1; k <= n; k++) {
        split(range[k], end, "-")
        if (x >= end[1] + 0 && x <= end[2] + 0) return 1
    }
    return 0
}

# How s is shown; `columns` is what that takes.
function visible(s, r) {
    columns = 0
    while (s != "") {
        letter(s)
        if (looks == "<01>" && nul) { looks = "<00>"; nul = 0 }
        r = r looks
        columns += wide
        s = substr(s, unit + 1)
    }
    return r
}

function quote(s) {
    if (length(s) > 40) {
        s = substr(s, 1, 40)
        sub(/[\300-\377][\200-\277]*$/, "", s)
        return "\"" visible(s) "...\""
    }
    return "\"" visible(s) "\""
}

function quote_letter(s) {
    letter(s)
    return "\"" looks "\""
}

# A name as it is, anything else between quotes.
function named(s) {
    return s ~ /^[A-Za-z0-9-]+$/ ? s : quote(s)
}

# The line s, of a long one the part round its byte `at`; and under it a caret.
function show(s, at, caret, from, to, front, back) {
    from = 1
    if (length(s) > 72 && at > 36) from = at - 36
    while (from < at && substr(s, from, 1) ~ /[\200-\277]/) from++
    to = length(s) - from < 72 ? length(s) : from + 71
    while (to < length(s) && substr(s, to + 1, 1) ~ /[\200-\277]/) to++
    if (from > 1) front = "..."
    if (to < length(s)) back = "..."
    nul = BYTES ~ /^00/
    print "    " front visible(substr(s, from, at - from)) visible(substr(s, at, to - at + 1)) back
    nul = 0
    visible(substr(s, from, at - from))
    if (caret) print "    " blanks(length(front) + columns) "^"
}

function without_return(s) {
    sub(/\r$/, "", s)
    return s
}

# The line of the place, as it stands; of a folded one its first line too.
function show_place(first_line) {
    if (at_line > NR) return
    first_line = KIND == "text" ? first[content_of[at_line]] : at_line
    if (first_line < at_line) show(without_return(line[first_line]), 1, 0)
    if (first_line < at_line - 1) print "    ..."
    show(without_return(line[at_line]), at_column, 1)
}

# The line and the column of a byte of the input.
function where(byte, k) {
    for (k = NR; k > 1 && start[k] > byte; k--);
    return "line " k ", column " (byte - start[k] + 1)
}

# ---- what the input is

# The names of programs that read what the input looks like, if this one does not.
function sniff(s, k) {
    s = line[1]
    sub(/^\357\273\277/, "", s)
    for (k = 2; s ~ /^[ \t\r]*$/ && k <= NR; k++) s = line[k]
    sub(/^[ \t]+/, "", s)
    if (s ~ /^\377\376/ || s ~ /^\376\377/) tell("The input begins as UTF-16 does. Save it as UTF-8.")
    else if (tolower(s) ~ /^<(!doctype )?html/) tell("The input begins as a web page does (HTML), not as a calendar.")
    else if (s ~ /^</ && KIND != "xml") tell("The input begins as XML does. to-text reads that.")
    else if (s ~ /^[[{]/ && KIND != "jcal") tell("The input begins as JSON does. jcal-to-text reads that.")
    else if (toupper(s) ~ /^BEGIN:/ && KIND != "text") tell("The input begins as iCalendar text does. to-xml and to-jcal read that.")
    else return 0
    return 1
}

function mark() {
    if (PLACE > 2 || line[1] !~ /^\357\273\277/) return 0
    tell("The input begins with a byte order mark (EF BB BF). Save it without one.")
    return 1
}

function say_character() {
    if (BYTES ~ /^(0|1|7f)/) {
        tell("It is the control U+00" toupper(substr(BYTES, 1, 2)) ".")
        if (BYTES ~ /^00/ && SIZE > 3 && sniff()) return
    } else if (BYTES ~ /^efbfb[ef]/) tell("It is U+FFF" toupper(substr(BYTES, 6, 1)) ".")
    else if (!sniff()) {
        tell("The byte " toupper(substr(BYTES, 1, 2)) " is no letter of UTF-8 here.")
        tell("If the input is in another encoding, as Windows-1252, it must be changed to UTF-8 first.")
    }
}

# ---- values: what is wrong with one of a type, spelled as in text or as in XML

# The characters with 9 for each digit.
function shape(v) {
    gsub(/[0-9]/, "9", v)
    return toupper(v)
}

function days(y, m) {
    if (m == 2) return y % 4 == 0 && y % 100 != 0 || y % 400 == 0 ? 29 : 28
    return m == 4 || m == 6 || m == 9 || m == 11 ? 30 : 31
}

# Of the digits of a day, and of a time.
function day_fault(v, y, m, d) {
    y = substr(v, 1, 4) + 0
    m = substr(v, 5, 2) + 0
    d = substr(v, 7, 2) + 0
    if (m < 1 || m > 12) return "There is no month " substr(v, 5, 2) "."
    if (d < 1 || d > days(y, m)) return "There is no day " substr(v, 7, 2) " in month " substr(v, 5, 2) " of " substr(v, 1, 4) "."
    return ""
}

function time_fault(v) {
    if (substr(v, 1, 2) > 23) return "There is no hour " substr(v, 1, 2) "."
    if (substr(v, 3, 2) > 59) return "There is no minute " substr(v, 3, 2) "."
    if (substr(v, 5, 2) > 60) return "There is no second " substr(v, 5, 2) "."
    return ""
}

function digits(v) {
    gsub(/[^0-9]/, "", v)
    return v
}

function date_fault(v, form, s) {
    s = shape(v)
    if (s == (form == "text" ? "99999999" : "9999-99-99")) return day_fault(digits(v))
    if (form == "text" && s == "9999-99-99") return "In iCalendar text a DATE is written as 20240504."
    if (form != "text" && s == "99999999") return "Here a DATE is written as 2024-05-04."
    if (s ~ /T/) return "It is a DATE, and has no time."
    return "A DATE is written as " (form == "text" ? "20240504" : "2024-05-04") "."
}

function date_time_fault(v, form, s, due, f) {
    s = shape(v)
    due = form == "text" ? "20240504T080000" : "2024-05-04T08:00:00"
    if (s == shape(due) || s == shape(due) "Z") {
        v = digits(v)
        f = day_fault(v)
        return f == "" ? time_fault(substr(v, 9)) : f
    }
    if (s == "99999999" || s == "9999-99-99")
        return "A DATE-TIME has a T and a time behind the day; a day alone has the type DATE" (form == "text" ? ": ;VALUE=DATE." : ".")
    if (form == "text" && (s == "99999999999999" || s == "99999999999999Z")) return "The T between day and time is missing."
    if (form == "text" ? s ~ /^9999-99-99/ : s ~ /^99999999T?999999/) return "Here a DATE-TIME is written as " due "."
    if (s ~ /^[9-]+T[9:]+[+-][9:]+$/) return "No offset may stand behind the time: Z says UTC, TZID names a time zone."
    if (s ~ /^[9-]+T99:?99Z?$/) return "The seconds are missing."
    if (s ~ /^[9-]+ [9:]+Z?$/) return "Between day and time stands a blank; it must be a T."
    return "A DATE-TIME is written as " due ", or with Z behind it."
}

function duration_fault(v) {
    v = toupper(v)
    if (v !~ /^[+-]?P/) return "A DURATION begins with P, as PT1H or P1D."
    if (v ~ /Y/) return "A DURATION has weeks, or days, hours, minutes and seconds, but no years."
    if (v ~ /^[+-]?P([0-9]+D)?[0-9]+[HMS]/) return "In a DURATION hours, minutes and seconds stand behind a T, as PT1H; there are no months."
    if (v ~ /T[0-9]+H[0-9]+S$/) return "Between hours and seconds stand the minutes, as in PT1H0M5S."
    if (v ~ /T$/) return "Behind the T stands no time."
    if (v ~ /W./) return "Weeks stand alone, as P2W."
    return ""
}

function uri_fault(type, v, k, c) {
    if (v !~ /^[A-Za-z][A-Za-z0-9+.-]*:/) {
        if (type == "CAL-ADDRESS" && v ~ /@/) return "An address is a URI: before a mailbox stands mailto:."
        return "A URI begins with a scheme and a colon, as https: or mailto:."
    }
    for (k = 1; (c = substr(v, k, 1)) != ""; k++)
        if (c !~ /[!-~]/ || index("\"<>\\^{|}`", c)) return "A URI can't hold " (c == " " ? "a blank" : quote_letter(substr(v, k))) "."
    return ""
}

function offset_fault(v, form, s) {
    s = shape(v)
    if (s ~ /^9/) return "A UTC-OFFSET begins with + or -."
    if (v ~ /^-[0:]+$/) return "A UTC-OFFSET of zero has a plus."
    if (form == "text" && s ~ /:/) return "In iCalendar text a UTC-OFFSET is written as +0100, without a colon."
    if (form != "text" && s ~ /^[+-]9999(99)?$/) return "Here a UTC-OFFSET is written as +01:00."
    return ""
}

function integer_fault(v) {
    if (v !~ /^[+-]?[0-9]+$/) return "An INTEGER is digits, perhaps with a sign."
    if (v + 0 > 2147483647 || v + 0 < -2147483648) return "An INTEGER is between -2147483648 and 2147483647."
    return ""
}

# Of a rule, as in text.
function rule_fault(v, n, part, k, p, e, come) {
    n = split(v, part, ";")
    for (k = 1; k <= n; k++) {
        e = index(part[k], "=")
        p = toupper(substr(part[k], 1, e - 1))
        if (!e) return "The part " quote(part[k]) " of the rule has no \"=\"."
        if (!is_word(words["part of a rule"], p)) return "A rule has no part " quote(p) "."
        if (come[p]++) return "The part " p " comes a second time."
        if (p == "FREQ" && !is_word(words[p], toupper(substr(part[k], e + 1)))) return "FREQ is one of " listing(words[p]) "."
    }
    if (!come["FREQ"]) return "A rule has a FREQ."
    if (come["UNTIL"] && come["COUNT"]) return "A rule has UNTIL or COUNT, not both."
    return ""
}

# Of TEXT with its escapes, as in iCalendar text.
function text_fault(name, v, k, c) {
    for (k = 1; (c = substr(v, k, 1)) != ""; k++) {
        if (c == "\\") {
            c = substr(v, ++k, 1)
            if (c == "") return "Behind the last backslash stands nothing; a backslash by itself is written \\\\."
            if (!index("\\;,nN", c)) return "Behind a backslash stands " quote_letter(substr(v, k)) "; a backslash by itself is written \\\\."
        } else if (c == ";" && name != "REQUEST-STATUS") return "In TEXT a semicolon is written with a backslash before it; here one has none."
        else if (c == "," && !listed[name]) return "In TEXT a comma is written with a backslash before it; here one has none."
    }
    return ""
}

# What is wrong with a value of a type; "" where that can't be said.
function value_fault(name, type, v, form, k) {
    if (form != "text" && (type == "PERIOD" || type == "RECUR")) return ""
    if (type != "TEXT" && type != "UNKNOWN" && v == "") return "The value is empty."
    if (type != "TEXT" && type != "UNKNOWN" && v ~ /^ | $/) return "A blank stands before or behind the value."
    if (type == "DATE") return date_fault(v, form)
    if (type == "DATE-TIME") return date_time_fault(v, form)
    if (type == "DURATION") return duration_fault(v)
    if (type == "URI" || type == "CAL-ADDRESS") return uri_fault(type, v)
    if (type == "UTC-OFFSET") return offset_fault(v, form)
    if (type == "INTEGER") return integer_fault(v)
    if (type == "FLOAT" && v !~ /^[+-]?[0-9]+(\.[0-9]+)?$/) return "A FLOAT is digits, perhaps with a sign, and with a point and digits."
    if (type == "RECUR" && form == "text") return rule_fault(v)
    if (type == "TEXT" && form == "text") return text_fault(name, v)
    if (type == "PERIOD" && form == "text" && v !~ /\//) return "A PERIOD is a start, a slash, and an end or a duration."
    if (type == "BOOLEAN" && form == "text" && !is_word("TRUE FALSE", toupper(v))) return "A BOOLEAN is TRUE or FALSE."
    if (type == "BOOLEAN" && form != "text" && !is_word("true false 1 0", v)) return "A BOOLEAN is true or false."
    return ""
}

function is_word(set, w) {
    return index(" " set " ", " " w " ") > 0
}

function listing(set) {
    gsub(/ /, ", ", set)
    return set
}

function one_of(set) {
    return " is " (set ~ / / ? "one of " : "") listing(set) "."
}

# Whether a property of the schema permits a type, a parameter.
function permits(set, w) {
    return index("," set ",", "," w ",") > 0
}

function type_fault(name, type, as) {
    as = types[name]
    gsub(/,/, " or ", as)
    return name " has the type " as ", not " type "."
}

# What is wrong with the values of a property that stands in a component. VERSION of another edition is a usual slip.
function property_fault(name, component, type, v, form, set, n, item, k, f) {
    set = name == "STATUS" ? words["STATUS of " component] : words[name]
    if (name in signs && set != "" && !is_word(set, form == "text" ? toupper(v) : v)) {
        if (name == "VERSION") return "VERSION is 2.0: that is the version of iCalendar, here it is " quote(v) "."
        return name (name == "STATUS" ? " of " component : "") one_of(set)
    }
    if (name == "GEO" && form == "text") return v ~ /;/ ? "" : "GEO is latitude;longitude, with a semicolon between them."
    if (type == "TEXT" || type == "RECUR" || !listed[name] || form != "text") return value_fault(name, type, v, form)
    n = split(v, item, ",")
    for (k = 1; k <= n; k++) if ((f = value_fault(name, type, item[k], form)) != "") return f
    return ""
}

# ---- how often properties stand in a component: count, by the component's id and the property's name

function plural(n) {
    return n == 2 ? "twice" : n " times"
}

# In a text, the lines of the properties that were counted.
function lines_of(id, p, n) {
    return seen[id, p] == "" ? "" : n > 1 ? " (lines " seen[id, p] ")" : " (line " seen[id, p] ")"
}

# All that a COUNT can mean of the component; `who` says which one it is, `bare` whether it has no component in it, `method` whether the calendar has METHOD.
function say_counts(component, id, who, bare, method, at, k, p, n, sign, u) {
    if (!(component in column)) return
    at = column[component]
    u = action[id]
    if (component == "VALARM") {
        if (!count[id, "ACTION"]) tell(who " has no ACTION.")
        if (u !~ /^(AUDIO|DISPLAY|EMAIL)$/) return
        at = u == "AUDIO" ? 9 : u == "DISPLAY" ? 10 : 11
    }
    for (k = 1; k <= properties; k++) {
        p = property[k]
        n = count[id, p] + 0
        sign = substr(signs[p], at, 1)
        if (p == "DTSTART" && component == "VEVENT" && !method) sign = "1"
        if (n == 0 && (sign == "1" || sign == "+")) tell(who " has no " p ".")
        if (n > 1 && (sign == "1" || sign == "?")) tell(who " has " p " " plural(n) lines_of(id, p, n) ". It may have one.")
        if (n > 0 && sign == ".") tell(who " has " p lines_of(id, p, n) ", which does not go with ACTION " u ".")
    }
    say_pairs(component, id, who)
    if (component == "VTIMEZONE" && bare) tell(who " has neither STANDARD nor DAYLIGHT.")
}

function say_pairs(component, id, who, duration) {
    duration = count[id, "DURATION"]
    if (component == "VEVENT" && duration && count[id, "DTEND"]) tell(who " has both DTEND and DURATION. It may have one of them.")
    if (component == "VTODO" && duration && count[id, "DUE"]) tell(who " has both DUE and DURATION. It may have one of them.")
    if (component == "VTODO" && duration && !count[id, "DTSTART"]) tell(who " has DURATION without DTSTART.")
    if (component == "VALARM" && duration && !count[id, "REPEAT"]) tell(who " has DURATION without REPEAT.")
    if (component == "VALARM" && !duration && count[id, "REPEAT"]) tell(who " has REPEAT without DURATION.")
}

# ---- iCalendar text

# Takes the folds out: content[k] is the line k without them and its CR LF, first[k] its first line as it stands. Of a line as it stands, content_of says whose it
# is, ahead what of that one comes before it, and skipped whether its first byte is a fold's.
function unfold(i, s, cr, fold, open) {
    for (i = 1; i <= NR; i++) {
        s = line[i]
        cr = s ~ /\r$/ && (i < NR || ends)
        if (cr) s = substr(s, 1, length(s) - 1)
        if (!open) first[++contents] = i
        content_of[i] = contents
        ahead[i] = length(content[contents])
        skipped[i] = fold
        content[contents] = content[contents] (fold ? substr(s, 2) : s)
        fold = cr && i < NR && line[i + 1] ~ /^[ \t]/
        open = fold || !cr
        if (cr) ended[contents] = !fold
        else if (skipped[i] && content[contents] ~ /\r$/) open = 0
        else if (i < NR || ends) {
            if (!bare[contents]) bare[contents] = i
            content[contents] = content[contents] "\n"
        }
    }
}

function begins_with_name(s) {
    return match(s, /^[A-Za-z0-9-]+/) ? RLENGTH : 0
}

# A content line: its name, parameters (name, place, number of values, the first, whether one has no quotes) and value; or what is against the grammar in it.
function parse(s, i, n, c, e) {
    grammar = ""
    parameters = 0
    n = begins_with_name(s)
    the_name = toupper(substr(s, 1, n))
    if (!n) { grammar = "A line begins with a name; this one begins with " quote_letter(s) "."; return }
    for (i = n + 1; substr(s, i, 1) == ";";) {
        n = begins_with_name(substr(s, i + 1))
        if (!n) { grammar = "Behind a semicolon stands no parameter's name, but " quote(substr(s, i + 1)) "."; return }
        parameter[++parameters] = toupper(substr(s, i + 1, n))
        parameter_at[parameters] = i + 1
        amount[parameters] = plain[parameters] = 0
        i += n + 1
        if (substr(s, i, 1) != "=") { grammar = "The parameter " parameter[parameters] " has no \"=\"."; return }
        do {
            i++
            if (substr(s, i, 1) == "\"") {
                e = index(substr(s, i + 1), "\"")
                if (!e) { grammar = "A double quote opens a parameter's value, and none closes it."; return }
                c = substr(s, i + 1, e - 1)
                i += e + 1
            } else {
                e = match(substr(s, i), /[";:,]/)
                c = e ? substr(s, i, e - 1) : substr(s, i)
                plain[parameters] = 1
                i += length(c)
            }
            if (!amount[parameters]++) first_of[parameters] = c
        } while (substr(s, i, 1) == ",")
    }
    c = substr(s, i, 1)
    the_value = substr(s, i + 1)
    if (c == ":") return
    if (c == "") grammar = "There is no colon before the value."
    else if (parameters) grammar = "Behind a parameter's value stands " quote_letter(substr(s, i)) "; there a comma, a semicolon or a colon is due."
    else grammar = "A name has letters, digits and hyphens; behind " quote(substr(s, 1, i - 1)) " stands " quote_letter(substr(s, i)) "."
}

# Reads the lines before the line k: which components are open there, and what they have.
function walk(k, i, id) {
    for (i = 1; i < k; i++) {
        parse(content[i])
        if (the_name == "BEGIN") {
            filled[level++] = 1
            open_name[level] = toupper(the_value)
            open_line[level] = first[i]
            open_id[level] = i
            filled[level] = 0
        } else if (the_name == "END") level--
        else {
            id = open_id[level]
            seen[id, the_name] = seen[id, the_name] (count[id, the_name]++ ? ", " : "") first[i]
            if (the_name == "ACTION" && action[id] == "") action[id] = toupper(the_value)
        }
    }
}

function opened() {
    return named(open_name[level]) ", begun in line " open_line[level] ","
}

function say_line(k, lone, i) {
    if (mark() || sniff()) return
    if (bare[k]) {
        lone = 1
        for (i = 1; i <= NR; i++) if (line[i] ~ /\r$/) lone = 0
        if (lone) tell("All lines end with LF alone. Lines of iCalendar text end with CR LF; sed 's/$/\\r/' makes them so.")
        else tell("Line " bare[k] " ends with LF alone. Lines of iCalendar text end with CR LF.")
    } else if (content[k] ~ /\r/) tell("It holds a CR that no LF follows.")
    else if (!ended[k]) tell("The last line is not ended by CR LF.")
    else if (content[k] == "") tell("The line is empty.")
    else {
        parse(content[k])
        if (grammar == "") return
        tell(grammar)
        if (k > 1 && !parameters) tell("If it goes on with the line before, it must begin with a blank.")
    }
}

function say_frame(parent, c) {
    if (sniff()) return
    parent = named(open_name[level])
    c = named(toupper(the_value))
    if (SIZE == 0) tell("The input is empty.")
    else if (PLACE == SIZE) tell(level ? opened() " is still open: END:" parent " is missing." : "No calendar has come.")
    else if (the_name == "END") tell(level ? "END:" parent " is due: " opened() " is open." : "Nothing is open that could end.")
    else if (!level) tell("No calendar is open. It begins with BEGIN:VCALENDAR.")
    else if (the_name == "BEGIN" && level > 8) tell("Components stand at most eight levels deep below VCALENDAR.")
    else if (the_name == "BEGIN") tell(c " may not stand in " parent (c == "VCALENDAR" || parent == c ? ": " opened() " is still open." : "."))
    else if (misplaced(the_name, parent)) tell(the_name " may not stand in " parent (parent == "VTODO" && the_name == "DTEND" ? "; it has DUE instead." : "."))
    else if (filled[level] && parent != "VTIMEZONE") tell("In " parent " the properties stand before the components.")
}

# A property of the schema that the component has not; of a VALARM, not with any ACTION.
function misplaced(name, component) {
    if (!(component in column) || !(name in signs)) return 0
    return component == "VALARM" ? substr(signs[name], 9) == "..." : substr(signs[name], column[component], 1) == "."
}

# A parameter's value without quotes ends at a colon, and the value of the line begins there; only some values have a colon.
function colon_fault(type) {
    if (!parameters || !plain[parameters]) return ""
    if (the_value !~ /^\/\// && (the_value !~ /:/ || the_value ~ /^[0-9T:+-]+Z?$/ || type ~ /^(TEXT|URI|CAL-ADDRESS|UNKNOWN)$/)) return ""
    return "A parameter's value that has a colon stands between double quotes; without them " \
        parameter[parameters] " is " quote(first_of[parameters]) ", and the line's value " quote(the_value) "."
}

function say_parameter(u, j, i, p, f) {
    for (j = 1; j <= parameters && parameter_at[j] != u; j++);
    if (j > parameters) { tell(the_name " with BINARY needs ENCODING=BASE64."); return }
    p = parameter[j]
    for (i = 1; i < j && parameter[i] != p; i++);
    f = j == parameters ? colon_fault("URI") : ""
    if (the_name == "BEGIN" || the_name == "END") tell(the_name " takes no parameters.")
    else if (i < j) tell(p " comes a second time.")
    else if (p == "VALUE") {
        if (!(toupper(first_of[j]) in is_type)) tell("VALUE names no type: " quote(first_of[j]) ".")
    } else if (the_name in signs && p in is_parameter && !permits(permitted[the_name], p)) tell(p " is not permitted on " the_name ".")
    else if (f != "") tell(f)
    else if (p in is_quoted && plain[j]) tell("The value of " p " must stand between double quotes.")
    else if (p in is_parameter && amount[j] > 1 && !(p in is_listed)) tell(p " has one value; one with a comma stands between double quotes.")
    else if (p in is_parameter && p in words && !is_word(words[p], toupper(first_of[j]))) tell(p one_of(words[p]))
    else if (p in is_quoted && (f = uri_fault(p == "ALTREP" || p == "DIR" ? "URI" : "CAL-ADDRESS", first_of[j])) != "") tell(f)
}

function say_value(j, type, f) {
    type = the_name in types ? types[the_name] : "UNKNOWN"
    sub(/,.*/, "", type)
    for (j = 1; j <= parameters; j++) if (parameter[j] == "VALUE") type = toupper(first_of[j])
    f = colon_fault(type)
    if (f == "" && the_name in types && !permits(types[the_name], type)) f = type_fault(the_name, type)
    if (f == "") f = property_fault(the_name, open_name[level], type, the_value, "text")
    if (f != "") tell(f)
}

function off_name(n) {
    return n ~ /^([0-9-]|XML)/
}

function say_name(i, n) {
    if (the_name == "BEGIN") { tell(quote(the_value) " can't be the name of a component."); return }
    n = the_name
    for (i = 1; i <= parameters && !off_name(n); i++) n = parameter[i]
    if (off_name(n)) tell("The name " quote(n) " begins with " (n ~ /^X/ ? "XML." : quote_letter(n) "."))
}

function say_text(k) {
    k = at_line > NR ? contents + 1 : content_of[at_line]
    if (NUMBER == 4) { say_line(k); return }
    walk(k)
    if (k <= contents) parse(content[k])
    if (NUMBER == 5) say_name()
    if (NUMBER == 6) say_frame()
    if (NUMBER == 7) say_parameter(ahead[at_line] + at_column - skipped[at_line])
    if (NUMBER == 8) say_value()
    if (NUMBER == 9) say_counts(open_name[level], open_id[level], opened(), !filled[level], count[open_id[1], "METHOD"])
}

# ---- xCal

function joined(i, s) {
    for (i = 1; i <= NR; i++) s = s line[i] (i < NR || ends ? "\n" : "")
    return s
}

# Reads the tags up to the place.
function say_xml(doc, n, part, i, at, tag, text, e, shut) {
    doc = joined()
    if (NUMBER == 11) { say_markup(doc); return }
    n = split(doc, part, "<")
    at = length(part[1])
    for (i = 2; i <= n && at <= PLACE; i++) {
        e = index(part[i], ">")
        tag = substr(part[i], 1, e - 1)
        text = substr(part[i], e + 1)
        shut = tag ~ /\/$/
        gsub(/[ \t\r\n].*|\/$/, "", tag)
        if (tag ~ /^\//) {
            if (at == PLACE) { end_of_element(); return }
            level--
        } else if (tag !~ /^[?!]/) {
            open_element(tag, at, text)
            if (at == PLACE) { start_of_element(tag, text); return }
            if (shut) level--
        }
        at += length(part[i]) + 1
    }
    path()
}

# Components and properties stand at even levels, whatever they are called.
function open_element(tag, at, text, p) {
    p = open_name[level++]
    open_name[level] = tag
    open_id[level] = at
    if (level == 2) calendar = at
    if (level % 2 == 0 && p == "components") filled[open_id[level - 2]] = 1
    if (level % 2 == 0 && p == "properties") count[open_id[level - 2], toupper(tag)]++
    if (level % 2 && tag == "text" && p == "action" && action[open_id[level - 3]] == "") action[open_id[level - 3]] = text
}

function end_of_element(c, id) {
    c = toupper(open_name[level])
    id = open_id[level]
    if (NUMBER == 9) say_counts(c, id, c ", begun in " where(id) ",", !filled[id], count[calendar, "METHOD"])
    else path()
}

# Where the place is: the components and the property round it.
function path(k, s) {
    for (k = level; k > 1; k--) if (open_name[k] !~ /^(properties|components|parameters)$/) s = s (s == "" ? "" : " of ") open_name[k]
    if (s != "") tell("It stands in " s ".")
}

# The element of a parameter or a value.
function start_of_element(tag, text, t, p) {
    level--
    path()
    t = toupper(tag)
    p = toupper(open_name[level - (open_name[level] == "parameters")])
    if (!(p in types)) return
    if (NUMBER == 7 && t in is_parameter && !permits(permitted[p], t)) tell(tag " is not permitted on " tolower(p) ".")
    if (NUMBER != 8 || open_name[level] == "parameters" || !(t in is_type) || text ~ /&/) return
    say_typed(p, toupper(open_name[level - 2]), t, text)
}

# A value of a property in a component.
function say_typed(name, component, type, v, f) {
    f = permits(types[name], type) ? property_fault(name, component, type, v, "xml") : tolower(type_fault(name, type))
    if (f != "") tell(f)
}

function say_markup(doc, s) {
    if (mark() || sniff()) return
    s = substr(doc, PLACE + 1)
    if (PLACE == SIZE) { unclosed(doc); return }
    if (s ~ /^<!--/) tell("It is a comment.")
    else if (s ~ /^<!\[CDATA\[/) tell("It is a CDATA section.")
    else if (s ~ /^<!DOCTYPE/) tell("It is a document type.")
    else if (s ~ /^<\?xml[ \t\r\n]/) tell("It is an XML declaration: version 1.0 and encoding utf-8 are read, at the input's start.")
    else if (s ~ /^<\?/) tell("It is a processing instruction.")
    else if (s ~ /^<\/?[A-Za-z0-9-]+:/) tell("Its name has a prefix.")
    else if (s ~ /^<icalendar[ \t\r\n>]/ && !index(substr(s, 1, index(s, ">")), "urn:ietf:params:xml:ns:icalendar-2.0"))
        tell("The root must be <icalendar xmlns=\"urn:ietf:params:xml:ns:icalendar-2.0\">.")
    else if (s ~ /^&(amp|lt|gt|quot|apos);/ || s ~ /^&#/) return
    else if (s ~ /^&[A-Za-z][A-Za-z0-9]*;/) tell("XML has no entity " substr(s, 1, index(s, ";")) " of its own; write the letter itself.")
    else if (s ~ /^&/) tell("A bare & is written &amp;.")
}

# What is open at the end.
function unclosed(doc, n, part, i, tag) {
    n = split(doc, part, "<")
    for (i = 2; i <= n; i++) {
        if (index(part[i], ">") == 0) { tell("The tag " quote("<" substr(part[i], 1, 20)) " is not closed by >."); return }
        tag = substr(part[i], 1, index(part[i], ">") - 1)
        if (tag ~ /^[?!]/ || tag ~ /\/$/) continue
        if (tag ~ /^\//) level--
        else {
            sub(/[ \t\r\n].*/, "", tag)
            open_name[++level] = tag
        }
    }
    if (SIZE == 0) tell("The input is empty.")
    else tell(level ? "Still open: " open_name[level] ". </" open_name[level] "> is missing." : "There is no element in it.")
}

# ---- jCal

# What is open stands in an array, and that is the element n, counted from 0, of an array that begins with a name: a property with 1, a component with 2.
function is_inner(n) {
    return level > 2 && kind[level - 1] == "[" && element[level - 2] == n && given[level - 2, 0] != ""
}

# Reads the JSON up to the place, or the array that begins there. Names with escapes are not taken apart.
function say_jcal(doc, i, c, s) {
    doc = joined()
    if (NUMBER == 12) { say_json(doc); return }
    for (i = 1; i <= length(doc); i++) {
        c = substr(doc, i, 1)
        if (c == "\"") {
            s = string_at(doc, i)
            if (element[level] < 4 && kind[level] == "[") given[level, element[level]] = s
            i += length(s) + 1
        } else if (c == "[" || c == "{") {
            kind[++level] = c
            element[level] = 0
            open_id[level] = i
            given[level, 0] = given[level, 2] = given[level, 3] = ""
            if (is_inner(2)) filled[open_id[level - 2]] = 1
            if (i == PLACE + 1) wanted = level
        } else if (c == ",") element[level]++
        else if (c == "]" || c == "}") {
            if (i == PLACE + 1 && NUMBER == 9) { end_of_component(); return }
            if (level == wanted) { say_array(); return }
            if (is_inner(1)) count_property(open_id[level - 2])
            level--
        }
    }
}

# The characters between double quotes, the first of which stands at i.
function string_at(doc, i, k, c) {
    for (k = i + 1; (c = substr(doc, k, 1)) != "" && c != "\""; k++) if (c == "\\") k++
    return substr(doc, i + 1, k - i - 1)
}

function count_property(id, p) {
    p = toupper(given[level, 0])
    if (p ~ /\\/) vague[id] = 1
    count[id, p]++
    if (p == "ACTION" && action[id] == "") action[id] = given[level, 3]
}

function end_of_component(c, id, k) {
    c = toupper(given[level, 0])
    id = open_id[level]
    for (k = level; k > 1 && given[k, 0] != "vcalendar"; k--);
    if (c !~ /\\/ && !vague[id] && !vague[open_id[k]]) say_counts(c, id, c ", begun in " where(id - 1) ",", !filled[id], count[open_id[k], "METHOD"])
}

function say_array(p, t, k) {
    p = toupper(given[level, 0])
    t = toupper(given[level, 2])
    for (k = level - 1; k > 0 && (kind[k] != "[" || given[k, 0] == ""); k--);
    if (p == "" || p ~ /\\/) return
    tell("It is " quote(given[level, 0]) (k > 0 ? " of " quote(given[k, 0]) "." : "."))
    if (NUMBER != 8 || !(p in types) || !(t in is_type) || element[level] != 3 || given[level, 3] ~ /\\/) return
    if (given[level, 3] != "" || !permits(types[p], t)) say_typed(p, toupper(given[k, 0]), t, given[level, 3])
}

function say_json(doc, c, before) {
    if (mark() || sniff()) return
    c = substr(doc, PLACE + 1, 1)
    before = substr(doc, 1, PLACE)
    sub(/[ \t\r\n]+$/, "", before)
    before = substr(before, length(before))
    if (PLACE == SIZE) tell(SIZE == 0 ? "The input is empty." : "The input ends before all that it opened is closed.")
    else if (c == "'") tell("Strings stand between double quotes.")
    else if (c ~ /[]}]/ && before == ",") tell("A comma stands before this bracket.")
    else if (c == "/") tell("JSON has no comments.")
    else if (c == "\n" || c == "\r" || c == "\t") tell("In a string a line break is written \\n and a TAB \\t.")
}

# ---- the whole

BEGIN {
    PLACE = ENVIRON["PLACE"] + 0
    SIZE = ENVIRON["SIZE"] + 0
    NUMBER = ENVIRON["NUMBER"] + 0
    KIND = ENVIRON["KIND"]
    BYTES = ENVIRON["BYTES"]
    for (i = 1; i < 256; i++) ord[sprintf("%c", i)] = i
    level = contents = properties = 0
    meanings()
    schema()
}

{
    line[NR] = $0
    start[NR] = total
    total += length($0) + 1
}

END {
    ends = NR > 0 && total == SIZE
    total += 0
    whose = ENVIRON["PROGRAM"] ": " ENVIRON["LABEL"] ": "
    refusal = "refused, " NUMBER " " meaning[NUMBER]
    if (NUMBER == 1 || NUMBER == 2 || NUMBER == 10 || NUMBER == 13) { print whose refusal; exit }
    for (at_line = 1; at_line <= NR && start[at_line] + length(line[at_line]) < PLACE; at_line++);
    at_column = PLACE - (at_line > NR ? total : start[at_line]) + 1
    print whose "line " at_line ", column " at_column " (in bytes)" (PLACE == SIZE ? ", the end of the input" : "") ": " refusal
    if (KIND == "text") unfold()
    show_place()
    if (NUMBER == 3) say_character()
    else if (KIND == "text") say_text()
    else if (KIND == "xml") say_xml()
    else say_jcal()
}
