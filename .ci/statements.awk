# What the statements of theorems name: reads lines 'FILE THEOREM', and prints a line for each name from inside the library that a statement comes to. With -v crates='sums|pair' these
# crates are inside.
#
# A statement is what stands between a theorem's name and its proof, with the parameters of the modules around it. A record, a data type or an abbreviation that it names, and that
# stands in proofs/, belongs to it with all that it says; of another definition or theorem that it names, the statement does. What stands in specs/ is looked at by itself
# (.ci/quick), so there the search ends.

function indent(line) { match(line, /^ */); return RLENGTH }

# Inside are the folders specs/Inside, and the crates that no operation's definition goes by.
function inside(path) { return path ~ /\.Inside\./ || path ~ /\.Inside$/ || crates != "" && path ~ ("^Rattle\\.(" crates ")\\.") }

# Rattle.text.proofs.Words: crates/text/proofs/Words.antt. Rattle's own library has no file here.
function file_of(path) {
    sub(/^Rattle\./, "crates/", path)
    gsub(/\./, "/", path)
    return path ".antt"
}

# use A.B.{name, other as name, Type.constructor}, and use A.B as name
function import(file, line,    path, names, n, part, i, word) {
    sub(/^ *use /, "", line)
    path = line
    sub(/[ {].*/, "", path)
    sub(/\.$/, "", path)
    if (line ~ / as [^ ]*$/ && line !~ /\{/) {
        sub(/.* as /, "", line)
        from[file, line] = path
        return
    }
    if (!match(line, /\{.*\}/)) return
    names = substr(line, RSTART + 1, RLENGTH - 2)
    n = split(names, part, /, */)
    for (i = 1; i <= n; i++) {
        split(part[i], word, " as ")
        add_name(file, word[2] != "" ? word[2] : word[1], path, word[1])
    }
}

# A constructor is used without its type, and an operator without its marks.
function add_name(file, name, path, original) {
    if (original ~ /^[^.]+\../) sub(/\..*/, "", original)
    sub(/^[^.]*\./, "", name)
    from[file, name] = path
    called[file, name] = original
    if (gsub(/◌/, "", name) && name != "") {
        from[file, name] = path
        called[file, name] = original
    }
}

# Every definition of a file, with the text that belongs to it.
function load(file,    line, depth, head, margin, heads, heading, i, name, kind, at, state, text) {
    if (file in loaded) return
    loaded[file] = 1
    heads = heading = 0
    name = ""
    while ((getline line < file) > 0) {
        sub(/ *-- .*/, "", line)
        if (line ~ /^ *(--.*)?$/) continue
        depth = indent(line)
        # the head of a module goes on to the word where
        if (heading) {
            head[heads] = head[heads] " " line
            if (line ~ / where$/) heading = 0
            continue
        }
        if (name != "" && depth > at) {
            if (state == "said") says[file, name] = says[file, name] " " line
            continue
        }
        # an equation of the definition before: a body
        if (name != "" && depth == at && index(substr(line, at + 1), name " ") == 1 && substr(line, at + 1) !~ ("^[^ ]+ :")) {
            state = kind == "abbrev" || kind == "unfoldable" ? "said" : "proof"
            if (state == "said") says[file, name] = says[file, name] " " line
            continue
        }
        if (line ~ /^ *unfolding /) {
            state = "proof"
            continue
        }
        name = ""
        while (heads > 0 && depth <= margin[heads]) heads--
        if (line ~ /^ *use /) {
            import(file, line)
            continue
        }
        if (line ~ /^ *module /) {
            heads++
            margin[heads] = depth
            head[heads] = line
            heading = line !~ / where$/
            continue
        }
        kind = "theorem"
        text = substr(line, depth + 1)
        while (match(text, /^(pub|abbrev|unfoldable|record|data) /)) {
            if (text !~ /^pub /) kind = substr(text, 1, RLENGTH - 1)
            text = substr(text, RLENGTH + 1)
        }
        if (kind != "record" && kind != "data" && text !~ /^[^ ]+ :/) continue
        name = text
        sub(/ .*/, "", name)
        at = depth
        state = "said"
        says[file, name] = says[file, name] " " text
        for (i = 1; i <= heads; i++) says[file, name] = head[i] " " says[file, name]
    }
    close(file)
}

# What a definition names, and what that names in turn.
function visit(file, name,    words, n, i, key, word, rest, text) {
    key = file SUBSEP name
    if (key in visited) return
    visited[key] = 1
    load(file)
    text = says[key]
    gsub(/[(){},;]/, " ", text)
    n = split(text, words, " ")
    for (i = 1; i <= n; i++) {
        word = words[i]
        sub(/\.$/, "", word)
        if (word == "" || word ~ /^\./) continue
        # a part of something that is named, or a name of a module that has another name here
        rest = ""
        if (!((file, word) in says || (file, word) in from) && word ~ /^[^.]+\../) {
            rest = word
            sub(/\..*/, "", word)
            sub(/^[^.]*\./, "", rest)
            sub(/\..*/, "", rest)
        }
        if ((file, word) in says) visit(file, word)
        else if ((file, word) in called) follow(from[file, word], called[file, word], word, file)
        else if ((file, word) in from) follow(from[file, word], rest, rest, file)
    }
}

function follow(path, name, word, file) {
    if (inside(path)) print theorem ": " word " of " path " (by " file ")"
    else if (path ~ /^Rattle\.[^.]*\.proofs\./) visit(file_of(path), name)
}

{
    theorem = $2 " in " $1
    for (key in visited) delete visited[key]
    load($1)
    if (($1, $2) in says) visit($1, $2)
    else print theorem ": its statement is not found"
}
