# What `pm_lab orders` tells, so that an edit of one line changes one line: a call has its text and which of its caller's calls of that text it is, in
# place of its number in the script, and the last line doesn't say how many states there are.
/^[^ ]+ [0-9]+ / {
    split_at = index($0, ": ")
    caller = $1
    text = substr($0, 1, split_at - 1)
    sub(/^[^ ]+ [0-9]+ /, "", text)
    print caller " " text " #" ++count[caller " " text] substr($0, split_at)
    next
}
{ sub(/, [0-9]+ states?$/, ""); print }
