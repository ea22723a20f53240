# shellcheck shell=sh
# What the tests share: read by `. tests/try.sh`. A test is a command: it passes with status 0, was skipped with
# status 77, and has failed with any other.
passed=0 failed=0 skipped=0

# runs the command named after the title, and says what became of it
try() {
    title=$1
    shift
    "$@"
    case $? in
    0)
        echo "ok   $title"
        passed=$((passed + 1))
        ;;
    77)
        echo "skip $title"
        skipped=$((skipped + 1))
        ;;
    *)
        echo "FAIL $title"
        failed=$((failed + 1))
        ;;
    esac
}

# says why a test is skipped
skip() {
    echo "skipped: $1"
    return 77
}

# the last line, and the status of the whole
summary() {
    echo "$1: $passed passed, $failed failed, $skipped skipped"
    [ "$failed" = 0 ]
}
