# Exported functions, as Rattle writes their heads, one to a line: awk -f .ci/exports.awk with a header of C, or with files of Rattle. So the two can be compared.
#
# A slice is a pointer in C and then its length, whose name is the pointer's with _length: 'const uint8_t *text, size_t text_length' is 'text: &[u8]'. What is lent to be written to
# is '&mut [u8]', and not const in C. A pointer without its length, or a length without a pointer, stays as it is in C, and so is like nothing in Rattle. What C calls `result` is `res` in
# Rattle, whose contracts have the other word for what a function returns.

function trim(text) {
    gsub(/[ \t]+/, " ", text)
    sub(/^ /, "", text)
    sub(/ $/, "", text)
    return text
}

BEGIN {
    rattle["uint8_t"] = "u8"
    rattle["uint64_t"] = "u64"
    rattle["int64_t"] = "i64"
    rattle["size_t"] = "usize"
}

# An argument of C: a slice, if the one after it is its length. `taken` is how many arguments that are.
function argument(this, after,    word, n, shared, name) {
    taken = 1
    shared = sub(/^const /, "", this)
    n = split(this, word, " ")
    if (n != 2 || !(word[1] in rattle)) return this
    name = word[2]
    if (!sub(/^\*/, "", name)) return called(name) ": " rattle[word[1]]
    if (after != "size_t " name "_length") return this
    taken = 2
    return called(name) ": &" (shared ? "" : "mut ") "[" rattle[word[1]] "]"
}

function called(name) { return name == "result" ? "res" : name }

function from_c(head,    name, part, n, i, all, returned) {
    returned = head
    sub(/ .*/, "", returned)
    name = head
    sub(/\(.*/, "", name)
    sub(/.* /, "", name)
    sub(/^[^(]*\(/, "", head)
    sub(/\).*/, "", head)
    n = split(head, part, ",")
    for (i = 1; i <= n; i++) part[i] = trim(part[i])
    all = ""
    for (i = 1; i <= n; i += taken) all = all (all == "" ? "" : ", ") argument(part[i], i < n ? part[i + 1] : "")
    return name "(" all ") -> " rattle[returned]
}

function from_rattle(head) {
    head = trim(head)
    sub(/^pub extern "C" fn /, "", head)
    sub(/\( /, "(", head)
    sub(/,? \) ->/, ") ->", head)
    return head
}

FILENAME ~ /\.h$/ && /^[a-z0-9_]+ \**[a-z_0-9]+\(/ { head = " " }
FILENAME ~ /\.rt$/ && /^pub extern "C" fn / { head = " " }
head != "" {
    head = head " " $0
    if (FILENAME ~ /\.h$/ && /;/) {
        print from_c(trim(head))
        head = ""
    } else if (FILENAME ~ /\.rt$/ && / -> /) {
        print from_rattle(head)
        head = ""
    }
}
