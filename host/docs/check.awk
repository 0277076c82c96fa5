# The checks of check.sh, which says what they are. The input is the documents; `update` is 1 where line numbers are to be set.

function fail(text) {
    print document (FNR ? ":" FNR : "") ": " text
    failed = 1
    exit 1
}

function exists(path) {
    if (!(path in existing)) existing[path] = path ~ /^[A-Za-z0-9_.\/-]+$/ && system("test -e '" path "'") == 0
    return existing[path]
}

# The words of a line of source.
function words_of(text, words) {
    gsub(/[][(){}:;,.<>=]/, " ", text)
    return split(text, words, " ")
}

# Takes a file of Rattle or of the prover in: declared[file, name] is the first line that declares a name, which is `pub NAME`
# with `abbrev`, `unfoldable`, `record` or `data`, or `fn NAME` and other items of Rattle; stands[file, line, name] is 1 for
# every word of a line; defined[file, name] is 1 for a definition, which is a `pub` at the start of its line and no `pub use`.
function take_in(file,    text, line, words, count, i, item, words_before) {
    if (file in taken) return
    taken[file] = 1
    while ((getline text < file) > 0) {
        line++
        if (file ~ /\/specs\// && text ~ /^use Rattle\..*\.specs\.declared\..*\.\{/) take_type(file, text)
        count = words_of(text, words)
        item = 0
        words_before = 1
        for (i = 1; i <= count; i++) {
            stands[file, line, words[i]] = 1
            if (!words_before) continue
            if (item && !((file, words[i]) in declared)) declared[file, words[i]] = line
            if (item && text ~ /^[a-z]/ && words[i] !~ /^(record|data|mod|use)$/) defined[file, words[i]] = 1
            if (words[i] ~ /^(pub|fn|trait|struct|enum|const|static)$/) item = 1
            else if (words[i] !~ /^(abbrev|unfoldable|record|data|extern|"C")$/) words_before = 0
        }
    }
    close(file)
}

# A type of the source that a definition imports: `use Rattle.CRATE.specs.declared.MODULE.TYPE.{TYPE}`, or its variants,
# `.. .TYPE.TheVariants.{VARIANT, ..}`; or constants, `.. .TheConstants.{NAME, ..}`. One of the crate's root has no MODULE.
function take_type(file, text,    parts, crate, names, i) {
    split(text, parts, ".specs.declared.")
    crate = parts[1]
    sub(/^use Rattle\./, "", crate)
    split((parts[2] ~ /^[A-Z]/ ? "lib." : "") parts[2], parts, ".")
    if (parts[2] != "TheConstants") imported["crates/" crate "/src/" parts[1] ".rt", parts[2]] = file
    else for (i = words_of(parts[3], names); i > 0; i--) imported["crates/" crate "/src/" parts[1] ".rt", names[i]] = file
}

# A name that a place `file:line` has beside it. Answers the line that is right.
function check_reference(file, line, name) {
    references++
    if (document == "docs/TRUST.md") listed[file, name] = 1
    if (!exists(file)) fail("there is no file " file)
    take_in(file)
    if ((file, name) in declared) {
        if (declared[file, name] != line && !update) fail(file ":" line ": " name " is declared in line " declared[file, name])
        return declared[file, name]
    }
    if (!((file, line, name) in stands)) fail(file ":" line ": no " name " stands there")
    return line
}

# A file or folder that is named, from the repository's root or from `crates`.
function check_path(path) {
    places++
    if (path !~ /(^|\/)(NAME|CRATE|CALL|FILE|LABEL)(\/|\.|$)/ && !exists(path) && !exists("crates/" path)) fail("there is no " path)
}

function check_edit(name) {
    places++
    if (!(name in edits)) edits[name] = system("ls crates/*/must-fail/" name " > /dev/null 2>&1") == 0
    if (!edits[name]) fail("no crate has a must-fail edit " name)
}

# The file of a module: crate::module, the crate's root, or a module of any crate where the crate is not named.
function module_of(parts, count,    path, i) {
    for (i = 2; i < count; i++) path = path "/" parts[i]
    if (exists("crates/" parts[1] "/src")) return "crates/" parts[1] "/src" (path == "" ? "/lib" : path) ".rt"
    for (i = 1; i in crates; i++) if (exists(crates[i] "/src/" parts[1] path ".rt")) return crates[i] "/src/" parts[1] path ".rt"
    return ""
}

# crate::module::name, crate::name of the crate's root or a module of it, or module::name; before the name a type that has it.
function check_item(item,    parts, count, modules, file, i) {
    places++
    count = split(item, parts, "::")
    if (item ~ /(^|::)(CRATE|CALL|NAME)(::|$)/) return
    if (count == 2 && exists("crates/" parts[1] "/src/" parts[2] ".rt")) return
    modules = count > 2 && parts[count - 1] ~ /^[A-Z]/ ? count - 1 : count
    file = module_of(parts, modules)
    if (file == "" || !exists(file)) fail(item ": there is no such module")
    take_in(file)
    for (i = modules; i <= count; i++) if (!((file, parts[i]) in declared)) fail(item ": its module declares no " parts[i])
}

# What stands between two backticks and is no place with a line.
function check_text(text) {
    if (text ~ /^(crates|host|docs|include|examples|\.ci)\/[A-Za-z0-9_.\/-]*$/) check_path(text)
    else if (text ~ /^[A-Za-z0-9_.\/-]+\/[A-Za-z0-9_.-]+\.(antt|rt|rs|c|h|sh|awk|py|md|svg|edit)$/) check_path(text)
    else if (text == "README.md" || text == "Makefile" || text == "crates.txt") check_path(text)
    else if (text ~ /^[a-z0-9_]+\.edit$/) check_edit(text)
    else if (text ~ /^[a-z_]+(::[A-Za-z_]+)+$/) check_item(text)
}

# A heading as links name it: small letters, no marks, hyphens for spaces.
function slug(text) {
    sub(/^#+ */, "", text)
    text = tolower(text)
    gsub(/[^a-z0-9 _-]/, "", text)
    gsub(/ /, "-", text)
    return text
}

function has_heading(file, heading,    text) {
    if (!(file in headings_of)) {
        headings_of[file] = 1
        while ((getline text < file) > 0) if (text ~ /^#/) headings[file, slug(text)] = 1
        close(file)
    }
    return (file, heading) in headings
}

# Where a link points to, from the document's folder.
function check_link(target,    folder, parts, file) {
    if (target ~ /^[a-z]+:/) return
    places++
    folder = document
    if (!sub(/\/[^\/]*$/, "/", folder)) folder = ""
    split(target, parts, "#")
    file = parts[1] == "" ? document : folder parts[1]
    if (!exists(file)) fail("there is no " file)
    if (target ~ /#/ && !has_heading(file, parts[2])) fail(file " has no heading for #" parts[2])
}

function check_links(text,    target) {
    while (match(text, /\]\([^ )]*\)/)) {
        target = substr(text, RSTART + 2, RLENGTH - 3)
        text = substr(text, RSTART + RLENGTH)
        check_link(target)
    }
}

# Goes through a line of a document. Answers the line with its line numbers set anew.
function check_line(text,    parts, count, i, file, line, between, fresh) {
    count = split(text, parts, "`")
    # parts at even places stand between backticks, where another part comes after them
    for (i = 1; i <= count; i++) {
        if (i % 2 == 1 || i == count) {
            check_links(parts[i])
            if (file == "") fresh = fresh (i % 2 == 1 ? "" : "`") parts[i]
            else between = parts[i]
        } else if (file != "") {
            fresh = fresh "`" file ":" check_reference(file, line, parts[i]) "`" between "`" parts[i] "`"
            file = ""
        } else if (parts[i] ~ /^[A-Za-z0-9_.\/-]+:[0-9]+$/) {
            file = line = parts[i]
            sub(/:[0-9]+$/, "", file)
            sub(/^.*:/, "", line)
        } else {
            check_text(parts[i])
            fresh = fresh "`" parts[i] "`"
        }
    }
    if (file != "") fail(file ":" line ": no name stands beside it")
    return fresh
}

# Every definition is listed in docs/TRUST.md, but for the parts of examples.
function check_listed(    file, key, parts) {
    while (("ls crates/*/specs/*.antt" | getline file) > 0) take_in(file)
    for (key in defined) {
        split(key, parts, SUBSEP)
        if (parts[1] !~ /\/specs\// || parts[1] ~ /\/(Examples|SampleRun|Lib)\.antt$/) continue
        if (!(key in listed)) fail(parts[2] " of " parts[1] " is not listed")
    }
    for (key in imported) {
        split(key, parts, SUBSEP)
        if (!(key in listed)) fail(parts[2] " of " parts[1] ", which " imported[key] " imports, is not listed")
    }
}

function store(    i) {
    if (update) for (i = 1; i <= length_of_document; i++) print lines[i] > document
    close(document)
}

BEGIN {
    while (("ls -d crates/*" | getline path) > 0) crates[++count_of_crates] = path
}

FNR == 1 {
    store()
    document = FILENAME
    length_of_document = 0
}

{ lines[++length_of_document] = check_line($0) }

END {
    if (failed) exit 1
    store()
    document = "docs/TRUST.md"
    FNR = 0
    if (whole) check_listed()
    if (failed) exit 1
    print "documents: " references " references to lines, " places " to files, items and headings"
}
