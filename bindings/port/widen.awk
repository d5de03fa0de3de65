# Makes the exported functions of the module those of the target's C interface.
#   awk -v bits=32 -v extend=ATTRIBUTE -f widen.awk MODULE.ll
# bits=32: size_t has 32 bits, and the module's lengths have 64. Each exported function becomes internal, and one
# around it under its name takes 32-bit lengths and widens them (a length that is answered is at most 3,218,461 and is
# cut). extend: what the target's C convention says of a 32-bit result in a wider register (signext on riscv64), or
# nothing.

function exported(line) { return line ~ /^define [a-z0-9_ ]*@borvukhai_[a-z_]+\(/ }

function name_of(line) { match(line, /@borvukhai_[a-z_]+/); return substr(line, RSTART + 1, RLENGTH - 1) }

# The type before the name: the last word that is one.
function result_of(line) { match(line, /(i32|i64) @borvukhai_/); return substr(line, RSTART, 3) }

function parameters_of(line,    from, rest) {
    from = index(line, "("); rest = substr(line, from + 1)
    return substr(rest, 1, match(rest, /\)[^)]*\{$/) - 1)
}

function wrapper(line,    name, result, count, given, k, word, n, type, taken, body, passed, answer) {
    name = name_of(line); result = result_of(line); answer = name ~ /_length$/ ? "i32" : result
    if (parameters_of(line) ~ /[()]/) { print "port: the parameters of " name " are not plain numbers and pointers" >"/dev/stderr"; exit bad = 1 }
    count = split(parameters_of(line), given, /, /)
    for (k = 1; k <= count; k++) {
        n = split(given[k], word, " "); type = word[1]
        taken = taken (k > 1 ? ", " : "") (type == "i64" ? "i32" : type) " %p" k
        if (type == "i64") body = body "  %w" k " = zext i32 %p" k " to i64\n"
        passed = passed (k > 1 ? ", " : "") type (type == "i64" ? " %w" : " %p") k
    }
    body = body "  %r = call " result " @\"wide." name "\"(" passed ")\n"
    if (answer != result) body = body "  %t = trunc i64 %r to i32\n"
    return "define " answer " @" name "(" taken ") nounwind {\n" body "  ret " answer (answer == result ? " %r" : " %t") "\n}\n"
}

exported($0) && bits == 32 {
    added = added wrapper($0)
    sub(/^define /, "define internal ")
    sub(/@borvukhai_[a-z_]+/, "@\"wide." name_of($0) "\"")
}
exported($0) && extend != "" { sub(/i32 @borvukhai_/, extend " &") }
{ print }
END { if (bad) exit bad; printf "\n%s", added }
