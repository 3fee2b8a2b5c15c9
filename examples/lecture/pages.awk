# Writes the pages of the lecture: the text of the file output as HTML, a page for each heading of the first
# rank. A page needs no script, and asks for nothing but the pictures beside it.
#
#     awk -v folder=FOLDER -v version="xvfs 0.2.0" [-v explorer=yes] -f pages.awk TEXT TEXT
#
# With explorer they name explorer.html, too.

function escaped(text) {
    gsub(/&/, "\\&amp;", text)
    gsub(/</, "\\&lt;", text)
    gsub(/>/, "\\&gt;", text)
    gsub(/"/, "\\&quot;", text)
    return text
}

# A line of text with its code and emphasis.
function inline(text,    parts, count, number, told, part) {
    count = split(escaped(text), parts, "`")
    told = ""
    for (number = 1; number <= count; number++) {
        part = parts[number]
        if (number % 2 == 0) {
            told = told "<code>" part "</code>"
            continue
        }
        while (match(part, /\*[A-Za-z][^*]*\*/))
            part = substr(part, 1, RSTART - 1) "<em>" substr(part, RSTART + 1, RLENGTH - 2) "</em>" \
                substr(part, RSTART + RLENGTH)
        told = told part
    }
    return told
}

function out(text) {
    print text > page
}

# The place of a heading of the second rank: `Run 1. A write` is run-1.
function place_of(heading) {
    sub(/\..*/, "", heading)
    gsub(/[^A-Za-z0-9]+/, "-", heading)
    return tolower(heading)
}

# Ends.

function end_table() {
    if (in_table) out("</tbody></table></div>")
    in_table = 0
}

function end_lines() {
    if (in_lines) out("</code></pre>")
    in_lines = 0
}

function end_block() {
    end_lines()
    end_table()
    if (picture != "") out("<p class=\"picture\"><a href=\"" picture "\">Walk through this run, and break it</a></p>")
    picture = ""
    if (paragraph != "") out("<p>" inline(paragraph) "</p>")
    paragraph = ""
    if (in_list) out("</ul>")
    in_list = 0
}

function end_part() {
    end_block()
    if (part != "") out("</" part ">")
    part = ""
}

function end_section() {
    end_part()
    if (in_section) out("</section>")
    in_section = 0
}

function end_page() {
    if (page == "") return
    end_section()
    out("</main>")
    out("<footer><p>The lines below the commands are what " escaped(version) " printed when these pages were made.</p></footer>")
    out("</body>")
    out("</html>")
    close(page)
}

# Beginnings.

function begin_page(title,    name, other) {
    end_page()
    name = title == "Exercises" ? "exercises" : title == "Solutions" ? "solutions" : "index"
    page = folder "/" name ".html"
    out("<!DOCTYPE html>")
    out("<html lang=\"en\">")
    out("<head>")
    out("<meta charset=\"utf-8\">")
    out("<meta name=\"viewport\" content=\"width=device-width, initial-scale=1\">")
    out("<title>" escaped(title) "</title>")
    out("<style>" style "</style>")
    out("</head>")
    out("<body>")
    out("<header>")
    out("<nav aria-label=\"Pages\"><ul>")
    # The sheet may be handed out alone.
    for (other = 1; other <= (name == "exercises" ? 2 : 3); other++)
        out("<li><a href=\"" files[other] ".html\"" (files[other] == name ? " aria-current=\"page\"" : "") ">" \
            labels[other] "</a></li>")
    if (explorer != "") out("<li><a href=\"explorer.html\">Explorer</a></li>")
    out("</ul></nav>")
    out("<h1>" inline(title) "</h1>")
    out("</header>")
    out("<main>")
    listed = 0
}

# Before its first section a page lists them all.
function list_sections(    number) {
    if (listed) return
    listed = 1
    out("<nav aria-label=\"Sections\"><ul>")
    for (number = 1; number <= counts[page_number]; number++)
        out("<li><a href=\"#" place_of(headings[page_number, number]) "\">" inline(headings[page_number, number]) "</a></li>")
    out("</ul></nav>")
}

function begin_section(heading) {
    end_section()
    list_sections()
    out("<section id=\"" place_of(heading) "\">")
    out("<h2>" inline(heading) "</h2>")
    in_section = 1
}

# A question is there from the beginning; the rest is opened by who teaches.
function begin_part(heading) {
    end_part()
    if (heading == "Question") {
        part = "div"
        out("<div class=\"question\">")
        out("<h3>" inline(heading) "</h3>")
    } else {
        part = "details"
        out("<details>")
        out("<summary>" inline(heading) "</summary>")
    }
}

# A line of a command or of what it printed.
function code_line(text) {
    if (text ~ /^\|/) {
        table_line(text)
        return
    }
    end_table()
    if (!in_lines) {
        printf "<pre><code>" > page
        in_lines = 1
    }
    if (text ~ /^\$ /) {
        if (match(text, /--picture [^ ;]+/)) picture = substr(text, RSTART + 10, RLENGTH - 10)
        out("<b>" escaped(text) "</b>")
    } else
        out(escaped(text))
}

# What a cell says is seen by its colour, too.
function class_of(cell, last) {
    if (cell == "new" || cell == "old") return cell
    if (cell ~ /^n [1-9]/) return "full"
    if (cell ~ /^n 0/) return "old"
    if (!last) return ""
    if (cell == "kept 0") return "before"
    return cell ~ /^kept [0-9]+$/ ? "kept" : "harm"
}

function table_line(text,    cells, count, number, cell, row) {
    end_lines()
    if (text ~ /^\|-/) return
    count = split(text, cells, /\|/)
    row = "<tr>"
    for (number = 2; number < count; number++) {
        cell = cells[number]
        gsub(/^ +| +$/, "", cell)
        if (!in_table)
            row = row "<th scope=\"col\">" escaped(cell) "</th>"
        else if (number == 2)
            row = row "<th scope=\"row\">" escaped(cell) "</th>"
        else
            row = row "<td class=\"" class_of(cell, number == count - 1) "\">" escaped(cell) "</td>"
    }
    if (!in_table) {
        out("<div class=\"wide\" role=\"region\" aria-label=\"The disk behind each write\" tabindex=\"0\"><table><thead>")
        out(row "</tr></thead><tbody>")
        in_table = 1
    } else
        out(row "</tr>")
}

BEGIN {
    split("index exercises solutions", files, " ")
    split("Lecture,Exercises,Solutions", labels, ",")
    style = "\n" \
        ":root{color-scheme:light dark;--ground:#fff;--ink:#16191d;--soft:#4a525c;--line:#c3cad2;--panel:#f2f5f8;" \
        "--link:#0a4f8f;--ask:#fff4d6;--ask-line:#a86b00;--new:#cfe6fa;--new-ink:#062f52;--full:#a33c08;--full-ink:#fff;" \
        "--kept:#d6f0de;--kept-ink:#0a4a25;--harm:#fbdbd7;--harm-ink:#82110d}\n" \
        "@media (prefers-color-scheme:dark){:root{--ground:#14171b;--ink:#eef1f4;--soft:#b3bcc6;--line:#49515b;--panel:#1f242a;" \
        "--link:#8cc4ff;--ask:#33290f;--ask-line:#e0a63a;--new:#123a5c;--new-ink:#dcefff;--full:#ffb48a;--full-ink:#2b0f00;" \
        "--kept:#123d24;--kept-ink:#d3f7df;--harm:#561a17;--harm-ink:#ffe1de}}\n" \
        "*{box-sizing:border-box}\n" \
        "html{font-size:clamp(1.1rem,.85rem + .75vw,1.9rem)}\n" \
        "body{margin:0;background:var(--ground);color:var(--ink);font:1em/1.45 system-ui,sans-serif}\n" \
        "header,main,footer{max-width:56rem;margin:0 auto;padding:0 1rem}\n" \
        "h1{font-size:1.7em;line-height:1.2;margin:.6em 0 .4em}h2{font-size:1.35em;line-height:1.25;margin:0 0 .6em}\n" \
        "h3{font-size:1.05em;margin:0}\n" \
        "p,ul{margin:.6em 0}em{font-style:normal;font-weight:700}a{color:var(--link)}\n" \
        "nav ul{list-style:none;padding:0;margin:.6em 0}header nav li{display:inline-block;margin-right:1.2em}\n" \
        "[aria-current]{color:var(--ink);text-decoration:none;font-weight:600}\n" \
        "section{border-top:3px solid var(--line);padding:1.2em 0;margin-top:1.2em}\n" \
        ".question{background:var(--ask);border-left:.4em solid var(--ask-line);padding:.6em 1em;margin:.8em 0;font-size:1.15em}\n" \
        ".question p{margin:.3em 0}\n" \
        "details{background:var(--panel);border:1px solid var(--line);border-radius:.3em;padding:.5em .8em;margin:.6em 0}\n" \
        "summary{cursor:pointer;font-weight:700;font-size:1.05em}summary:focus-visible,a:focus-visible,.wide:focus-visible{outline:3px solid var(--link);outline-offset:2px}\n" \
        "code,pre{font-family:ui-monospace,Consolas,\"DejaVu Sans Mono\",monospace;font-size:.9em}\n" \
        "pre{white-space:pre-wrap;overflow-wrap:anywhere;margin:.6em 0;line-height:1.35}pre code{font-size:1em}\n" \
        "pre b{color:var(--link)}\n" \
        ".wide{overflow-x:auto;margin:.6em 0}table{border-collapse:separate;border-spacing:2px;font-size:.95em}\n" \
        "th,td{padding:.15em .5em;text-align:center;white-space:nowrap}thead th{color:var(--soft)}\n" \
        "tbody th,thead th:first-child{text-align:left;font-weight:600}td:last-child,thead th:last-child{text-align:left}\n" \
        ".old,.before{color:var(--soft)}.new{background:var(--new);color:var(--new-ink);font-weight:600}\n" \
        ".full{background:var(--full);color:var(--full-ink);font-weight:700}\n" \
        ".kept{background:var(--kept);color:var(--kept-ink);font-weight:600}.harm{background:var(--harm);color:var(--harm-ink);font-weight:700}\n" \
        ".kept::before{content:\"\\2713\\00a0\"}.harm::before{content:\"\\2717\\00a0\"}\n" \
        "footer{color:var(--soft);font-size:.85em;padding-bottom:2em}\n" \
        "@media (max-width:40rem){details{padding:.4em .5em}th,td{padding:.1em .2em}table{font-size:.7em}" \
        "td:last-child,thead th:last-child{position:sticky;right:0}.before,thead th:last-child{background:var(--panel)}}\n" \
        "@media print{.new,.full,.kept,.harm,.question{print-color-adjust:exact}details::details-content{content-visibility:visible;block-size:auto}html{font-size:11pt}section{break-inside:auto}}\n"
}

# First the headings, for the lists; then the text.
FNR == 1 { pass++ }

pass == 1 && /^# / { page_count++ }
pass == 1 && /^## / { headings[page_count, ++counts[page_count]] = substr($0, 4) }
pass == 1 { next }

/^# / {
    begin_page(substr($0, 3))
    page_number++
    next
}
/^## / {
    end_block()
    begin_section(substr($0, 4))
    next
}
/^### / {
    begin_part(substr($0, 5))
    next
}
/^    / {
    if (paragraph != "" || in_list) end_block()
    code_line(substr($0, 5))
    next
}
/^- / {
    if (!in_list) {
        end_block()
        out("<ul>")
    }
    in_list = 1
    out("<li>" inline(substr($0, 3)) "</li>")
    next
}
/^$/ {
    end_block()
    next
}
{ paragraph = paragraph (paragraph == "" ? "" : " ") $0 }

END { end_page() }
