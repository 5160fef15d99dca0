# A definition, law or lemma that other files may cite has a name of its own: lists each name that is `pub` in two .antt files, at their top or in a section
# `module _`, and each import from proofs/ in specs/ and in the contracts of src/, but for std's arithmetic, which stands in std's proofs.Math. What a record
# or a data type declares inside itself does not count, nor do a function's own Answers.antt and Invariants.antt, whose names are those of the goals that the
# toolchain asks for, nor types of the code. Exit status 1 where there is one.
FNR == 1 { depth = 0 }
/^ *$/ || /^ *--/ { next }
{
    match($0, /^ */)
    while (depth && RLENGTH <= indent[depth]) depth--
    line = substr($0, RLENGTH + 1)
    indent[++depth] = RLENGTH
    section[depth] = line ~ /^module /
    open = 1
    for (i = 1; i < depth; i++) open = open && section[i]
}
FILENAME !~ /\/proofs\// && line ~ /^(pub )?(ghost )?use / && line ~ /[.·]proofs\./ && line !~ / Rattle\.std\.proofs\.Math\./ { print FILENAME ": " line; found = 1 }
FILENAME ~ /\.antt$/ && FILENAME !~ /\/proofs\/.+\/(Answers|Invariants)\.antt$/ && open && line ~ /^((abbrev|unfoldable|opaque) )*pub / && line !~ /^pub (mod|use) / {
    sub(/^((abbrev|unfoldable|opaque) )*pub ((record|data) )?/, "", line)
    sub(/[ :({].*/, "", line)
    if (line in first && first[line] != FILENAME) { print line ": " first[line] " and " FILENAME; found = 1 }
    else first[line] = FILENAME
}
END { exit found }
