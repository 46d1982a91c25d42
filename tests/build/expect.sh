# shellcheck shell=bash
# For the tests of tests/build: what a command says, on either output, and how it ends.

# said WORDS OUTPUT: fails the test where the words are not in the output.
said() {
    [[ $2 == *"$1"* ]] || stop "build: not said: $1; but: $2"
}

# expect WORDS COMMAND..: the command succeeds and says these words.
expect() {
    local words=$1 output
    shift
    output=$("$@" 2>&1) || stop "build: failed: $*: $output"
    said "$words" "$output"
}

# expect_not WORDS COMMAND..: the command fails and says these words.
expect_not() {
    local words=$1 output
    shift
    ! output=$("$@" 2>&1) || stop "build: did not fail: $*: $output"
    said "$words" "$output"
}

# expect_line LINE COMMAND..: the command fails and says this line alone.
expect_line() {
    local line=$1 output
    shift
    ! output=$("$@" 2>&1) || stop "build: did not fail: $*: $output"
    [[ $output == "$line" ]] || stop "build: not said alone: $line; but: $output"
}
