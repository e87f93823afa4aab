# Cuts a text into pieces by `lex.awk`. A directive outside of annotations is a blank.

mode == "code" && /^[ \t\r\f\v]*#/ { next }

{ lex($0, 0) }
