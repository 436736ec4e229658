# Whether the report of a run, on the standard input, ends with the exit value `value` and puts out the bytes `bytes`, and each call
# that begins arrives four steps later: then the status is 0.
$1 == "out" && $4 != "-" { put = put $4 }
$1 == "enter" { entered++; due[$2 + 4, $3] }
$1 == "arrive" { arrived++; if (!(($2, $3) in due)) stray = 1 }
$1 == "exit" { ended = $4 }
END { exit !(ended == value && put == bytes && arrived == entered && !stray) }
