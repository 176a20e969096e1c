# Reads what `cargo test -- --show-output` writes, and prints a line for each test: its file or module and its name in
# words, its result, and what it says that it has compared (tests/independent/tests/common/counts.rs); behind one that
# failed, all that it says. At the end it prints the sums. The exit status is 0 where tests ran and all of them passed.

# A number with its digits in threes.
function with_commas(number, digits, threes) {
    digits = sprintf("%d", number)
    for (threes = ""; length(digits) > 3; digits = substr(digits, 1, length(digits) - 3))
        threes = "," substr(digits, length(digits) - 2) threes
    return digits threes
}

# A test's name in words.
function in_words(name) {
    sub(/::tests::/, ": ", name)
    gsub(/::|_/, " ", name)
    return file name
}

# Adds a count to the sum of its words.
function add(text, words) {
    words = text
    sub(/^[^ ]* /, "", words)
    sub(/ .*/, "", text)
    gsub(/,/, "", text)
    if (!(words in sum))
        order[++sums] = words
    sum[words] += text
}

# Prints the tests of a file, once all of them have ended.
function print_tests(i) {
    for (i = 1; i <= tests; i++) {
        print "tests: " in_words(name[i]) ": " result[name[i]] compared[name[i]]
        printf "%s", said[name[i]]
    }
    tests = 0
    at = ""
    split("", result)
    split("", compared)
    split("", said)
}

# A file of tests begins.
/^ +Running unittests / { file = ""; next }
/^ +Running tests\// { file = $2; sub(/^tests\//, "", file); sub(/\.rs$/, ": ", file); next }

# A test has ended.
/^test .* \.\.\. ok$/ { name[++tests] = $2; result[$2] = "ok"; passed++; next }
/^test .* \.\.\. FAILED$/ { name[++tests] = $2; result[$2] = "FAILED"; failed++; next }

# What each test said.
/^---- .* stdout ----$/ { at = $2; next }
/^successes:$/ || /^failures:$/ { at = ""; next }
/^test result: / { print_tests(); next }
at != "" && result[at] == "FAILED" { said[at] = said[at] $0 "\n"; next }
at != "" && /^in all: / { sub(/^in all: /, ""); add($0 " (in all)"); next }
at != "" && NF > 0 { compared[at] = compared[at] ", " $0; if (/(agree|hold)$/) add($0) }

END {
    print_tests()
    refused = ""
    for (i = 1; i <= sums; i++) {
        if (sub(/ \(in all\)$/, "", order[i]))
            refused = refused ", " order[i] " " with_commas(sum[order[i] " (in all)"])
        else
            print "tests: in all, " with_commas(sum[order[i]]) " " order[i]
    }
    if (refused != "")
        print "tests: alterations, and calls refused by 11: " substr(refused, 3)
    print "tests: " (passed > 0 && failed == 0 ? "ok, " : "") passed + 0 " tests passed, " failed + 0 " failed"
    exit !(passed > 0 && failed == 0)
}
