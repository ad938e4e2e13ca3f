# Makes the edits that must fail: those of a crate's must-fail/, in that crate, and the wrong machines of tests/wrong,
# in the whole repository. Each 'old:' text must stand exactly once in the file that the 'file:' line before it names,
# the changes before it made. What does not fit is told. With `into`, a folder, the changed files of the edit are
# written there; without, nothing is.
function fail(what) {
    failed++
    bad = 1
    print "FAILED " edit ": " what
}
# keeps the text of a file of this edit, with the changes made so far
function opened(name,    path, line) {
    if (name in text) return
    path = edit
    sub(/(must-fail|tests\/wrong)\/.*/, "", path)
    path = path name
    text[name] = ""
    while ((getline line < path) > 0) text[name] = text[name] line "\n"
    close(path)
    if (text[name] == "") fail("there is no " path)
}
function value() { return substr($0, length($1) + 2) }
# the end of an edit
function done(    name) {
    if (edit == "" || bad) return
    passed++
    if (into != "") for (name in text) printf "%s", text[name] > (into "/" name)
}
FNR == 1 {
    done()
    edit = FILENAME
    bad = 0
    split("", text)
    file = ""
}
$1 == "file:" {
    file = $2
    opened(file)
}
$1 == "old:" {
    old = value()
    at = index(text[file], old)
    if (!at) fail("not in " file ": " old)
    else if (index(substr(text[file], at + 1), old)) fail("more than once in " file ": " old)
}
$1 == "new:" && at { text[file] = substr(text[file], 1, at - 1) value() substr(text[file], at + length(old)) }
END {
    done()
    if (into == "") {
        if (passed && !failed) print "ok " passed " edits find what they edit"
        print (passed && !failed) + 0 " passed, " (passed ? failed + 0 : failed + 1) " failed"
    }
    exit failed > 0 || passed == 0
}
