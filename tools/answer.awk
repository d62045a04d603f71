# Puts a solver's answer into document 01's form: one v line with every variable once, rising. Variables left out are false. Also minisat's
# form is read: a line SAT or UNSAT, and the literals without a v. Says why, and fails, where the answer can't be read or contradicts itself.
# Set variables to how many there are, and status to the solver's exit status: 10 says satisfiable, 20 unsatisfiable, 0 neither.
# A verdict may be said twice: the same claim again is no contradiction.

function stop(why) {
    print why
    stopped = 1
    exit 1
}

function shown(text) {
    gsub(/[^ -~]/, "?", text)
    return "\"" substr(text, 1, 60) "\""
}

function take(from,  i) {
    valued = NR
    for (i = from; i <= NF; i++) take_literal($i)
}

function take_literal(word,  v) {
    if (word !~ /^-?[0-9]+$/) stop(shown(word) " stands for a variable")
    v = word < 0 ? -word : word + 0
    if (v > variables) stop("it names variable " v ", and there are " variables)
    if (v in value && value[v] != (word > 0)) stop("it calls variable " v " true and false")
    value[v] = word > 0
    if (v > 0) named = 1
    ended = v == 0
}

{ sub(/[ \t\r]+$/, "") }
/^c/ || NF == 0 { next }
/^(s[ \t]+)?SAT(ISFIABLE)?$/ { sat = NR; next }
/^(s[ \t]+)?UNSAT(ISFIABLE)?$/ { none = NR; next }
/^(s[ \t]+UNKNOWN|INDET|INDETERMINATE)$/ { stop("it says that it found none (" $0 ")") }
/^v([ \t]|$)/ { take(2); next }
/^[-0-9 \t]+$/ { take(1); next }
{ stop("its line " NR " is " shown($0)) }

END {
    if (stopped) exit 1
    if (!NR) stop("it is empty")
    if (sat && none) stop("it contradicts itself: line " sat " says SATISFIABLE, line " none " UNSATISFIABLE")
    if (!sat && !none) stop("it says neither SATISFIABLE nor UNSATISFIABLE")
    if (none && status == 10) stop("it contradicts itself: it says UNSATISFIABLE, and its status 10 says SATISFIABLE")
    if (sat && status == 20) stop("it contradicts itself: it says SATISFIABLE, and its status 20 says UNSATISFIABLE")
    if (none && valued) stop("it contradicts itself: it says UNSATISFIABLE, and line " valued " is for values")
    if (none) {
        print "s UNSATISFIABLE"
        exit
    }
    if (!named) stop("it says SATISFIABLE and gives no model")
    if (!ended) stop("its values do not end with 0: it was cut off")
    printf "s SATISFIABLE\nv"
    for (v = 1; v <= variables; v++) printf " %d", value[v] ? v : -v
    print " 0"
}
