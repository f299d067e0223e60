# Reads the tree, then docs/AUDIT.md, and says where the page is wrong. .ci/audit runs it and says what it looks at.

function say(what) { print "audit: " what; faults = 1 }

# words TEXT, WORD: the names in a text, as WORD[1] and on; how many there are
function words(text, word) { gsub(/[^A-Za-z0-9_-]+/, " ", text); return split(text, word, " ") }

# the name that a line defines: its first word that is no modifier
function defined_by(line, word, n, i) {
    n = split(line, word, " ")
    for (i = 1; i <= n && word[i] ~ /^(abbrev|unfoldable|pub|record|data)$/; i++);
    return i <= n ? word[i] : ""
}

function is_there(path, line, got) { got = getline line < path; close(path); return got >= 0 }

# below CRATE, OTHER: whether OTHER is CRATE or one that it depends on
function below(crate, other, dep, n, i) {
    if (crate == other) return 1
    n = split(needs[crate], dep, " ")
    for (i = 1; i <= n; i++) if (below(dep[i], other)) return 1
    return 0
}

# reach TEXT: REACHED has the names in a text, and those in the definitions of names that it has
function reach(text, word, n, i) {
    n = words(text, word)
    for (i = 1; i <= n; i++)
        if (!(word[i] in REACHED)) {
            REACHED[word[i]] = 1
            if (word[i] in says) reach(says[word[i]])
        }
}

# tokens CELL, TOKEN: what stands between backticks, as TOKEN[1] and on
function tokens(cell, token, part, n, i) {
    n = split(cell, part, "`")
    for (i = 2; i <= n; i += 2) token[i / 2] = part[i]
    return int(n / 2)
}

# look CELL: every name in a cell is in the tree; `file` is the last that the row has named
function look(cell, token, n, i, t) {
    n = tokens(cell, token)
    for (i = 1; i <= n; i++) {
        t = token[i]
        if (t ~ /^\.\/run /) {
            if (!is_there("crates/" substr(t, 7) "/stdout")) say("no program " substr(t, 7))
        } else if (t ~ /::/) {
            if (!(t in item)) say(t " is not there")
        } else if (t ~ /\.(specs|proofs)\./) {
            file = t; gsub(/\./, "/", file); file = "crates/" file ".antt"
            if (!(file in lines)) say(t " is not there")
        } else if (t ~ /\//) {
            if (!(t in folder)) say("no edit " t)
        } else if (!((file, t) in defines)) say(t " is not in " (file == "" ? "a file that its row names" : file))
    }
}

# a row of the files that a reader must believe
function file_row(name, count) {
    rows[name]++
    if (!(name in lines)) say(name " is not there")
    else if (count != lines[name]) say(name " has " lines[name] " lines")
}

# a row of 'Public calls': at least one definition is in the contract's own words, and the rest is what these say; the
# edits are two or more wrong programs, of the call's crate or of one below
function call_row(call, told, edits, token, n, i, found, crate) {
    rows[call]++
    if (!(call in contract)) { say(call " is not there"); return }
    if (told !~ /^ *equation: /) {
        split("", REACHED)
        reach(contract[call])
        n = tokens(told, token)
        for (i = 1; i <= n; i++) {
            if (token[i] ~ /\./) continue
            if (!(token[i] in REACHED)) say(call ": its contract does not rest on " token[i])
            if (index(" " contract[call] " ", " " token[i] " ")) found = 1
        }
        if (!found) say(call ": its contract names nothing that it is told by")
    }
    crate = call; sub(/::.*/, "", crate)
    n = tokens(edits, token)
    if (n < 2 || token[1] == token[2]) say(call " has no two edits")
    for (i = 1; i <= n; i++) {
        found = token[i]; sub(/\/.*/, "", found)
        if (!below(crate, found)) say(call ": " token[i] " is not of a crate that it runs")
        if (token[i] in folder && folder[token[i]] == "misstated") say(call ": " token[i] " is a wrong statement")
    }
}

# can_be_made NAME: what each pair of an edit changes stands once in its file, as the pairs before it leave that
function can_be_made(name, i, file, old, at, had) {
    for (i = 1; i <= pairs[name]; i++) {
        file = change[name, i, "in"]; old = change[name, i, "old"]
        if (!(file in had)) had[file] = whole[file]
        at = index(had[file], old)
        if (!at || index(substr(had[file], at + length(old)), old)) say(name ": '" old "' is not once in " file)
        had[file] = substr(had[file], 1, at - 1) change[name, i, "new"] substr(had[file], at + length(old))
    }
}

# a row of a table of edits
function edit_row(name, breaks) {
    rows[name]++
    if (!(name in folder)) say("no edit " name)
    else if (breaks != first[name]) say(name " breaks another sentence: " first[name])
}

function spaced(text) { gsub(/ +/, " ", text); return text }

function trimmed(cell) { gsub(/^ +| +$/, "", cell); return cell }

function count_is(pattern, noun, count, rest, number) {
    for (rest = prose; match(rest, pattern); rest = substr(rest, RSTART + RLENGTH)) {
        number = substr(rest, RSTART, RLENGTH); gsub(/[^0-9]/, "", number)
        if (number != count) say("there are " count " " noun ", and the page says " number)
    }
}

FNR == 1 { path = FILENAME; split(path, part, "/"); crate = part[2]; type = ""; name = ""; in_contract = 0 }

FILENAME == "crates.txt" {
    if (/^[a-z]/) { crate = $1; sub(/:/, "", crate); $1 = ""; needs[crate] = $0 }
    next
}

FILENAME ~ /\.(antt|rt)$/ { whole[FILENAME] = whole[FILENAME] $0 "\n" }

FILENAME ~ /\.edit$/ {
    if (/^file: /) edited = "crates/" crate "/" substr($0, 7)
    if (/^old: /) old = substr($0, 6)
    if (/^new:/) {
        n = ++pairs[name]; change[name, n, "in"] = edited; change[name, n, "old"] = old
        sub(/^new: ?/, ""); change[name, n, "new"] = $0
    }
    if (FNR > 1) next
    name = part[4]; sub(/\.edit$/, "", name); name = crate "/" name
    if (name in folder) say(name " stands in two folders")
    if (part[3] !~ /^(wrong|must-fail|misstated)$/) say(path " is in none of the three folders")
    folder[name] = part[3]; edits[part[3]]++; all_edits++
    if (part[3] == "must-fail" && ++tried[crate] == 4) say("crates/" crate "/must-fail has more than three edits")
    first[name] = $0; sub(/^# /, "", first[name])
    next
}

FILENAME ~ /\.antt$/ {
    lines[path] = FNR
    if (/^ *--/ || /^use / || /^ *$/) next
    defines[path, defined_by($0)] = 1
    if (part[3] != "specs") next
    if (/^[^ ]/) name = defined_by($0)
    says[name] = says[name] " " $0
    next
}

FILENAME ~ /\.rt$/ {
    if (FNR == 1) {
        module = path; sub(/.*\/src\//, "", module); sub(/\.rt$/, "", module)
        within = crate "::" (module ~ /^(lib|main)$/ ? "" : module "::")
        if (module == "lib") open[within] = 1
    }
    if (module == "lib" && match($0, /^pub mod [a-z0-9_]+/)) open[within substr($0, 9, RLENGTH - 8) "::"] = 1
    if (/^impl /) { defaults = $2 == "Default"; type = (defaults ? $4 : $2) "::"; held = "" }
    if (/^ *ghost is_default = /) { held = $0; gsub(/[^A-Za-z0-9_-]+/, " ", held) }
    if (/^}/) { type = ""; defaults = 0 }
    if (match($0, /^ *(pub(\(crate\))? )?(extern "C" )?(fn|struct|enum|const) [A-Za-z0-9_]+/)) {
        name = substr($0, RSTART, RLENGTH); sub(/.* /, "", name); name = within type name
        item[name] = 1
        in_contract = / fn |^fn /
        if (in_contract) { contract[name] = ""; promised = 0; if (/^ *pub /) public[name] = within }
        # what an impl Default promises stands in its ghost member
        if (defaults && / default\(/) { contract[name] = held; public[name] = within; in_contract = 0 }
    }
    if (in_contract) {
        if (/^ *requires /) promised = 0
        if (/^ *ensures /) promised = 1
        if (promised) { text = $0; gsub(/[^A-Za-z0-9_-]+/, " ", text); contract[name] = contract[name] text }
        if (/^ *[{]$/ || (/[{]$/ && !promised)) in_contract = 0
    }
    next
}

FILENAME ~ /vectors\/stdout$/ { if (/ cases, /) cases = $1; else if ($1 ~ /^[0-9a-f][0-9a-f]$/) kinds++; next }

# ---- the page

!/^\|/ { prose = prose " " $0; head = ""; next }
head == "" { head = $0; next }
/^\|-/ { next }
{
    n = split($0, cell, "|")
    tokens(cell[2], token)
    file = ""
    if (head ~ /^\| file \| lines /) file_row(token[1], trimmed(cell[3]))
    else if (head ~ /^\| edit /) edit_row(token[1], trimmed(cell[3]))
    else {
        if (head ~ /^\| call /) call_row(token[1], cell[3], cell[5])
        for (i = 3; i < n; i++) look(cell[i])
    }
}

END {
    for (path in lines)
        if (path ~ /\/specs\// && path !~ /\/Lib\.antt$/) {
            sum += lines[path]
            if (rows[path] != 1) say(path " stands in " rows[path] + 0 " rows of the files to believe")
        }
    for (name in folder) can_be_made(name)
    for (name in folder) if (rows[name] != 1) say(name " stands in " rows[name] + 0 " rows of the tables of edits")
    for (name in public)
        if (public[name] in open && rows[name] != 1) say(name " stands in " rows[name] + 0 " rows of 'Public calls'")
    for (name in contract)
        if (name ~ /::wb_/) {
            call = name
            if (sub(/^wispbundle_c::/, "wispbundle::", call)) {
                if (spaced(contract[name]) != spaced(contract[call])) say(name " promises something else than " call)
            } else if (sub(/^wispbundle::/, "wispbundle_c::", call) && !(call in contract)) say(name " has no export for C")
        }
    count_is("Together [0-9,]+ lines", "lines of definitions", sum)
    count_is("[0-9][0-9,]* edits", "edits", all_edits)
    count_is("[0-9][0-9,]* wrong programs", "wrong programs", edits["wrong"] + edits["must-fail"])
    count_is("[0-9][0-9,]* wrong statements", "wrong statements", edits["misstated"] + 0)
    count_is("[0-9][0-9,]* cases", "cases", cases)
    count_is("[0-9][0-9,]* kinds", "kinds", kinds)
    exit faults
}
