# awk -v folder=CRATE -v write=0 -f host/edit.awk EDIT: carries an edit of must-fail/ or tries/ out on the crate in a folder, and where `write` is 1 keeps it. Leaves status 1 where an 'old:'
# text does not stand in its file exactly once. Each pair of 'old:' and 'new:' goes over what those before it have made of the file. In an edit with a line 'above:' the old text may go over
# several lines, with \n between them.
function load(name, line, whole) {
    while ((getline line < name) > 0) whole = whole line "\n"
    close(name)
    return whole
}
/^above: / { lines = 1 }
/^file: / { file = folder "/" substr($0, 7); if (!(file in text)) text[file] = load(file) }
/^old: / { old = substr($0, 6); if (lines) gsub(/\\n/, "\n", old) }
/^new:/ {
    new = substr($0, 5)
    sub(/^ /, "", new)
    at = index(text[file], old)
    if (!at || index(substr(text[file], at + length(old)), old)) { bad = 1; exit }
    text[file] = substr(text[file], 1, at - 1) new substr(text[file], at + length(old))
    done++
}
END {
    if (bad || !done) exit 1
    if (write) for (file in text) printf "%s", text[file] > file
}
