# What public functions are lent, and what their uniqueness theorems look at: awk -f .ci/lent.awk, with every crates/*/proofs/Unique.antt and then every file of crates/*/src. It
# prints a line for each public function that has no such theorem, and for each whose theorem does not look at exactly those arguments that are lent to be written to.
#
# A theorem is 'pub NAME : One f.Learnt' for a function that is lent nothing, and else 'pub NAME : OneLent f.Learnt (λ k e. (e.0.now, e.1.0.now))', where argument n, counted from 0, is e
# with n times .1 and then .0; or 'pub NAME : OneSeen f.Learnt ..' for one that is lent nothing and whose result refers to what it was given. Which function f is, the file says: 'use Rattle.CRATE.proofs.PATH.Reads as f'.

function crate_of(file) {
    sub(/^crates\//, "", file)
    sub(/\/.*/, "", file)
    return file
}

# The arguments in a set, in order: ' 1 2', or ' none'.
function listed(set,    i, all) {
    all = ""
    for (i = 0; i < 100; i++) if (i in set) all = all " " i
    return all == "" ? " none" : all
}

# ---- The theorems.

# Which arguments a statement looks at.
function looked_at(statement,    set, part) {
    split("", set)
    while (match(statement, /[( ]e(\.[01])*\.now/)) {
        part = substr(statement, RSTART, RLENGTH)
        statement = substr(statement, RSTART + RLENGTH)
        set[gsub(/\.1/, "", part)] = 1
    }
    return listed(set)
}

# A statement goes on to the line of its proof, which begins at the margin.
function end_statement(    alias) {
    if (statement == "") return
    alias = statement
    sub(/^[^:]*: One(Lent|Seen)? /, "", alias)
    sub(/\.Learnt.*/, "", alias)
    theorem[about[alias]] = 1
    looks[about[alias]] = looked_at(statement)
    statement = ""
}

FILENAME ~ /\/Unique\.antt$/ {
    if (statement != "" && /^ /) {
        statement = statement $0
        next
    }
    end_statement()
    if (/^use .*\.Reads as /) {
        path = $2
        sub(/^Rattle\.[^.]*\.proofs\./, "", path)
        sub(/\.Reads$/, "", path)
        about[$4] = crate_of(FILENAME) " " path
    }
    if (/^pub [^ ]+ : One(Lent|Seen)? [^ ]+\.Learnt/) statement = $0
    next
}

# ---- The functions. A head goes from its name to the bracket that closes its arguments.

# The path of a function: the file's, the type's if it is a method, its own name.
function path_of(file, type, name,    path) {
    path = file
    sub(/^crates\/[^\/]*\/src\//, "", path)
    sub(/\.rt$/, "", path)
    gsub(/\//, ".", path)
    return (path == "lib" || path == "main" ? "" : path ".") (type == "" ? "" : type ".") name
}

# Which arguments of a head are lent to be written to.
function lent(head,    set, part, n, i) {
    split("", set)
    sub(/^[^(]*\(/, "", head)
    sub(/\)[^)]*$/, "", head)
    n = split(head, part, ",")
    for (i = 1; i <= n; i++) if (part[i] ~ /&mut /) set[i - 1] = 1
    return listed(set)
}

function end_head(    name, key) {
    name = head
    sub(/.*fn /, "", name)
    sub(/\(.*/, "", name)
    key = crate_of(FILENAME) " " path_of(FILENAME, type, name)
    if (!(key in theorem)) print FILENAME ": " name ": no theorem in Unique.antt says that it has one outcome"
    else if (looks[key] != lent(head)) print FILENAME ": " name ": arguments that are lent to be written to:" lent(head) "; that its theorem looks at:" looks[key]
    head = ""
}

FNR == 1 {
    end_statement()
    type = ""
}
/^impl/ {
    type = $2
    sub(/<.*/, "", type)
}
/^}/ { type = "" }
/^ *pub (extern "C" )?fn / { head = " " }
head != "" {
    head = head $0
    if (head ~ /\)/) end_head()
}
