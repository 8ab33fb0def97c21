# Whether a text is what `cover` wrote (docs/FORMATS.md, Cover), of the application at hand. Behind places.awk.
BEGIN { for (t = 0; t < tasks; t++) code_of[hexadecimal(flash[t])] = 1 }
{
    if ($1 == "code" && NF == 3) {
        if (!($2 in code_of)) refuse(ENVIRON["FILE"] " is of another application: no task of " ENVIRON["APP"] " has its code at " $2)
    } else if ($1 ~ /^([0-9]+|-)$/ && $2 ~ /^[0-9a-f]+$/ && length($2) == 8) counts_line = 1
    else if ($1 !~ /^(label|rest|covered|in)$/) refuse(ENVIRON["FILE"] ": line " NR " is no line of what cover wrote")
}
END {
    if (refused) exit 1
    if (NR == 0) refuse(ENVIRON["FILE"] " is not what cover wrote: it is empty")
    if (!counts_line) refuse(ENVIRON["FILE"] " is not what cover wrote: it counts no instruction")
}
