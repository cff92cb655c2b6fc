#!/bin/sh
# sum.sh FILE..: the outputs of several runs of run.sh as one: how often each kind got each reply, as rows of a table, and the counts.
set -eu
awk '
    function name(r) { return r == "ok" ? 0 : r ~ /^v/ ? 100 + substr(r, 2) : r + 0 }
    /^kind / { for (i = 3; i <= NF; i++) { split($i, x, ":"); n[$2, name(x[1])] += x[2]; label[name(x[1])] = x[1] } }
    /^seeds .* scripts \(/ { s += $5; d += substr($7, 2); b += $9; r += $11; a += $13; f += $15; t += $17 }
    END {
        for (k = 0; k <= 44; k++) {
            line = ""
            for (v = 0; v <= 110; v++) if ((k, v) in n) { line = line (line == "" ? "" : ", ") label[v] ": " n[k, v]; pairs++ }
            print "| " (k ? k : "none") " | " line " |"
        }
        print pairs " pairs of kind and reply"
        print s " scripts (" d " distinct within their runs), " b " bytes, " r " records, " a " accepted, " f " differ, " t " s"
    }' "$@"
