# The page with its tables made anew: awk -f tools/promises.awk with the files of all crates, and then with the page. tools/promises says which files, and which comments are read.
# Where something is missing it is told on standard error, and the status is 1.

function crate_of(file) {
    sub(/^crates\//, "", file)
    sub(/\/.*/, "", file)
    return file
}

# The name of a file without its folder and ending.
function name_of(file) {
    sub(/.*\//, "", file)
    sub(/\.[a-z]*$/, "", file)
    return file
}

function complain(text) {
    print text >"/dev/stderr"
    failed = 1
}

function joined(before, mark, after) { return before == "" ? after : after == "" ? before : before mark after }

# A sentence of a comment, as it stands in a table.
function cell(text,    part, n, i, all) {
    sub(/\.$/, "", text)
    n = split(text, part, "|")
    all = part[1]
    for (i = 2; i <= n; i++) all = all "\\|" part[i]
    return all
}

function code(text) { return "`" text "`" }

# 2739 is written 2,739.
function thousands(n) {
    n = n ""
    return length(n) > 3 ? thousands(substr(n, 1, length(n) - 3)) "," substr(n, length(n) - 2) : n
}

# A line of a comment. One that begins with one of the words begins a text, which goes on until the next such line; `said` has the texts by these words, and what stands before the
# first of them by "".
function hear(line, words,    word, n, i) {
    n = split(words, word, "|")
    for (i = 1; i <= n; i++) {
        if (index(line, word[i]) == 1) {
            topic = word[i]
            line = substr(line, length(topic) + 1)
            break
        }
    }
    if (topic in said) line = joined(said[topic], " ", line)
    said[topic] = line
}

function forget() {
    split("", said)
    topic = ""
}

FNR == 1 {
    finish_edit()
    forget()
    crate = crate_of(FILENAME)
    head = type = ""
}

# ---- Definitions.

FILENAME ~ /\/specs\/Lib\.antt$/ {
    if (FNR == 1) crates[++all_crates] = crate
    if (/^-- /) hear(substr($0, 4), "What the definitions say: |Need not be believed: ")
    else topic = "other"
    says[crate] = said["What the definitions say: "]
    believed[crate] = said["Need not be believed: "] == ""
    if (/^pub mod / && $3 != "Inside") modules[crate] = joined(modules[crate], " ", $3)
    next
}

FILENAME ~ /\/specs\// {
    if (FNR == 1) {
        module = FILENAME
        sub(/.*\/specs\//, "", module)
        sub(/\.antt$/, "", module)
        files[crate] = joined(files[crate], " ", module)
    }
    lines[crate, module]++
    if (!/^ *(--.*|use .*)?$/) bare[crate, module]++
    next
}

function believed_table(    i, k, n, m, crate, module, known, names, here, total, plain, text, inner) {
    text = "| crate | files of `specs/` | lines | what they say |\n|---|---|---|---|\n"
    for (i = 1; i <= all_crates; i++) {
        crate = crates[i]
        if (!believed[crate]) {
            inner = joined(inner, " ", code(crate))
            continue
        }
        if (says[crate] == "") complain("crates/" crate "/specs/Lib.antt: no comment 'What the definitions say: ..', or 'Need not be believed: ..'")
        n = split(modules[crate], module, " ")
        names = ""
        here = 0
        split("", known)
        for (k = 1; k <= n; k++) {
            known[module[k]] = 1
            if (!((crate, module[k]) in lines)) complain("crates/" crate "/specs/Lib.antt: no file " module[k] ".antt")
            names = joined(names, ", ", code(module[k]))
            here += lines[crate, module[k]]
            plain += bare[crate, module[k]]
        }
        m = split(files[crate], module, " ")
        for (k = 1; k <= m; k++) if (!(module[k] in known)) complain("crates/" crate "/specs/" module[k] ".antt: not in specs/Lib.antt, so it is not counted")
        total += here
        text = text "| " code(crate) " | " names " | " here " | " cell(says[crate]) " |\n"
    }
    return text "\n" wrapped(thousands(total) " lines in all; " thousands(plain) " without comments, imports and blank lines. Not counted is what stands in a folder `specs/Inside`" \
        (inner == "" ? "" : ", and in the `specs/` of " listed(inner)) ".")
}

# `a`, `b` and `c`
function listed(names,    name, n, i, all) {
    n = split(names, name, " ")
    all = name[1]
    for (i = 2; i <= n; i++) all = all (i < n ? ", " : " and ") name[i]
    return all
}

# Text in lines of at most 120 columns.
function wrapped(text,    word, n, i, line, all) {
    n = split(text, word, " ")
    line = word[1]
    for (i = 2; i <= n; i++) {
        if (length(line) + 1 + length(word[i]) > 120) {
            all = all line "\n"
            line = word[i]
        } else line = line " " word[i]
    }
    return all line "\n"
}

# ---- Must-fail edits. What has been read of one is put together when the next file begins.

FILENAME ~ /\.edit$/ {
    if (FNR == 1) {
        edit = FILENAME
        changes = ""
    }
    if (/^# /) hear(substr($0, 3), "No longer holds: |Functions: ")
    else topic = "other"
    if (/^file: /) {
        if ($2 !~ /^(src|specs)\// || $2 ~ /\/Cases\.antt$/) complain(FILENAME ": it changes " $2 ", and not code or a definition")
        if (index(changes, code("crates/" crate "/" $2)) == 0) changes = joined(changes, " ", code("crates/" crate "/" $2))
    }
    next
}

function finish_edit(    part, n, i, key, name) {
    if (edit == "") return
    name = name_of(edit)
    if (said[""] == "") complain(edit ": no comment says what it does")
    if (said["No longer holds: "] == "") complain(edit ": no comment 'No longer holds: ..'")
    edits = edits "| " code(name) " | " changes " | " cell(said[""]) " | " cell(said["No longer holds: "]) " |\n"
    n = split(said["Functions: "], part, ", ")
    for (i = 1; i <= n; i++) {
        key = crate " " part[i]
        stored[key] = joined(stored[key], "; ", code(name) (changes ~ /\/specs\// ? " (in the definition)" : ""))
        wanted[++all_wanted] = key
        by[all_wanted] = edit
    }
    edit = ""
}

# ---- Uniqueness theorems: 'pub NAME : One f.Learnt', and 'use Rattle.CRATE.proofs.PATH.Reads as f'.

FILENAME ~ /\/Unique\.antt$/ {
    if (/^-- /) {
        hear(substr($0, 4), "Refused when tried: ")
        next
    }
    if (/^use .*\.Reads as /) {
        path = $2
        sub(/^Rattle\.[^.]*\.proofs\./, "", path)
        sub(/\.Reads$/, "", path)
        gsub(/\./, "::", path)
        about[crate, $4] = path
    }
    if (/^pub [^ ]+ : One(Lent|Seen)? [^ ]+\.Learnt/) {
        sub(/\.Learnt.*/, "", $5)
        key = crate " " about[crate, $5]
        theorem[key] = $2
        tried[key] = said["Refused when tried: "]
    }
    forget()
    next
}

# ---- Public functions. A head goes to the brace that opens the body.

FILENAME ~ /\.rt$/ && /^impl/ {
    type = $2
    sub(/<.*/, "", type)
}
FILENAME ~ /\.rt$/ && /^}/ { type = "" }

FILENAME ~ /\.rt$/ && head == "" {
    if (/^ *\/\/ /) {
        sub(/^ *\/\/ /, "")
        hear($0, "Asks that ")
        next
    }
    if (/^ *#\[/) next
    if (/^ *pub (extern "C" )?fn /) {
        head = $0
        sub(/.*fn /, "", head)
        sub(/[^a-z_0-9].*/, "", head)
        asks = said["Asks that "]
        wants = ""
    }
    forget()
}

FILENAME ~ /\.rt$/ && head != "" {
    # A `requires` may have a name, and may go on over several lines, up to the brace that closes it.
    if (/^ *requires /) {
        text = $0
        sub(/^ *requires *[a-z_0-9]* *\{ */, "", text)
        asking = 1
    } else if (asking) {
        more = $0
        sub(/^ */, "", more)
        text = joined(text, " ", more)
    }
    if (asking && closes(text)) {
        sub(/ *\} *$/, "", text)
        wants = joined(wants, ", ", code(text))
        asking = 0
    } else if (!asking && /\{ *$/) {
        finish_function()
        head = ""
    }
}

# Whether a text has one closing brace more than opening ones, so that it ends what a brace has opened.
function closes(text) { return gsub(/\}/, "}", text) > gsub(/\{/, "{", text) }

function finish_function(    path, key, name, wrong) {
    path = FILENAME
    sub(/^crates\/[^\/]*\/src\//, "", path)
    sub(/\.rt$/, "", path)
    gsub(/\//, "::", path)
    path = (path == "lib" || path == "main" ? "" : path "::") (type == "" ? "" : type "::") head
    key = crate " " path
    name = code(crate "::" path)
    is_function[key] = 1
    if (!(key in theorem)) complain(FILENAME ": " head ": no theorem in Unique.antt says that it has one outcome")
    wrong = joined(stored[key], "; ", tried[key])
    functions = functions "| " name " | " code(theorem[key]) " | " code("crates/" crate "/proofs/Unique.antt") " | " (wrong == "" ? "none tried" : cell(wrong)) " |\n"
    if (wants != "") asked = asked "| " name " | " cell(asks) " | " cell(wants) " |\n"
    if (wants != "" && asks == "") complain(FILENAME ": " head ": it has a `requires`, and no comment 'Asks that ..'")
    if (wants == "" && asks != "") complain(FILENAME ": " head ": a comment 'Asks that ..', and no `requires`")
}

# ---- The page. Each table is made when its place comes.

function table(name) {
    if (name == "what has to be believed") return believed_table()
    if (name == "public functions") return "| function | one outcome | file | wrong programs that were refused |\n|---|---|---|---|\n" functions
    if (name == "what public helpers ask") return "| function | asks that | in its `requires` |\n|---|---|---|\n" asked
    if (name == "must-fail edits") return "| edit | changes | what it does | a fact that no longer holds |\n|---|---|---|---|\n" edits
    complain(FILENAME ": no table is called '" name "'")
    return ""
}

FILENAME ~ /\.md$/ {
    if (making != "") {
        if ($0 != "<!-- end -->") next
        making = ""
    }
    print
    if (/^<!-- made by tools\/promises: .* -->$/) {
        making = $0
        sub(/^<!-- made by tools\/promises: /, "", making)
        sub(/ -->$/, "", making)
        places[making]++
        print ""
        print table(making)
    }
}

END {
    if (making != "") complain(FILENAME ": no line '<!-- end -->' after the table '" making "'")
    n = split("what has to be believed|public functions|what public helpers ask|must-fail edits", name, "|")
    for (i = 1; i <= n; i++) if (places[name[i]] != 1) complain(FILENAME ": there has to be one table '" name[i] "'")
    for (i = 1; i <= all_wanted; i++) if (!(wanted[i] in is_function)) {
        key = wanted[i]
        sub(/ /, "::", key)
        complain(by[i] ": no public function is called " key)
    }
    exit failed
}
