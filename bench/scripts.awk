# Writes an editing script by a seed: creases across the sheet, folding jobs, and asks that are waited for, peeked at
# and cancelled among further edits. A peek is followed at once by a wait for the same job.
function below(n) { return int(rand() * n) }
function place() { return (below(13) - 6) * 25 }
function crease(  at, kind) {
    at = place()
    kind = 2 + below(2)
    if (below(4) > 0) print kind, at, -200, at, 200
    else print kind, -200, at, 200, at
}
BEGIN {
    srand(seed)
    jobs = 0
    for (n = 1 + below(6); n > 0; n--) crease()
    if (below(2) == 0) print "budget", 1 + below(2000)
    for (n = 20 + below(30); n > 0; n--) {
        job = 1 + below(jobs + 1)
        step = below(12)
        if (step < 2 && jobs < 40) { print "fold"; jobs++ }
        else if (step < 5) print "another", job
        else if (step < 8) print "wait", job
        else if (step == 8) { print "peek", job; print "wait", job }
        else if (step == 9) crease()
        else if (step == 10) print (below(3) > 0 ? "undo" : "redo")
        else if (below(4) == 0) print "cancel", job
        else print "budget", 1 + below(50000)
    }
    for (job = 1; job <= jobs; job++) { print "another", job; print "wait", job }
}
