#!/bin/sh
# Runs the listing program (the argument, or crates/listing/out/listing, as the gate leaves it) on input that ends, on input
# that can't be read and on output that can't be written, and compares standard output, standard error and the exit status.
set -e
program=${1:-$(dirname "$0")/../crates/listing/out/listing}
work=$(mktemp -d)
trap 'rm -rf "$work"' EXIT
cases=0
failed=0

header='line\tanswer\tkind\n'
two_lines='ana\t$pbkdf2s2\nbo\t$argon2i$m=8,t=1,p=0\n'
two_rows='1\t0\tparameters\n2\t11\t-\n'
unread='listing: standard input could not be read; the listing is incomplete\n'
unwritten='listing: standard output could not be written; the listing is incomplete\n'

# run COMMAND..: keeps what it writes, and its exit status.
run() {
    status=0
    "$@" > "$work/out" 2> "$work/err" || status=$?
}

# agrees CASE OUT ERR: the command before wrote OUT and ERR, and its exit status was 0.
agrees() {
    cases=$((cases + 1))
    printf %b "$2" > "$work/due.out"
    printf %b "$3" > "$work/due.err"
    if [ "$status" -eq 0 ] && cmp -s "$work/out" "$work/due.out" && cmp -s "$work/err" "$work/due.err"; then
        return
    fi
    failed=$((failed + 1))
    echo "tests/listing.sh: $1: exit status $status; what is due (-) and what was written (+):" >&2
    diff -u "$work/due.out" "$work/out" >&2 || true
    diff -u "$work/due.err" "$work/err" >&2 || true
}

# list TEXT: the listing of a file that holds the text.
list() {
    printf %b "$1" > "$work/in"
    run "$program" < "$work/in"
}

# stall TEXT: the listing of a pipe that gives the text, and then neither a byte nor an end.
stall() {
    printf %b "$1" > "$work/in"
    run perl -MFcntl -e '
        pipe(FROM, TO) && fcntl(FROM, F_SETFL, O_NONBLOCK) or die "pipe: $!";
        syswrite(TO, $_) while <STDIN>;
        open(STDIN, "<&", \*FROM) or die "standard input: $!";
        exit(system(@ARGV) != 0);
    ' "$program" < "$work/in"
}

list "$two_lines\n"
agrees "document 01's example" "$header${two_rows}3\t19\t-\n" ''
list ''
agrees 'empty input' "$header" ''
list "${two_lines}carla\t\$pbkdf2s3"
agrees 'a last line without a line feed' "$header${two_rows}3\t0\tparameters\n" ''

run "$program" <&-
agrees 'closed standard input' '' "$unread"
run "$program" < "$work"
agrees 'a directory as standard input' '' "$unread"
run "$program" 0> "$work/in"
agrees 'standard input open for writing only' '' "$unread"
if perl -MFcntl -e 1 2> /dev/null; then
    stall "${two_lines}carla\t\$pbkdf2s3"
    agrees 'input that fails inside its third line' "$header$two_rows" "$unread"
    stall 'ana'
    agrees 'input that fails inside its first line' "$header" "$unread"
    stall ''
    agrees 'input that fails before its first byte' '' "$unread"
else
    echo 'perl is not installed: input that fails after it began is left out'
fi

printf %b "$two_lines" > "$work/in"
run sh -c '"$0" > /dev/full' "$program" < "$work/in"
agrees 'full standard output' '' "$unwritten"
run sh -c '"$0" >&-' "$program" < "$work/in"
agrees 'closed standard output' '' "$unwritten"
# Far more rows than wait at once: the byte after those that the program read is still there.
yes '' | head -n 200000 > "$work/in"
run sh -c '"$0" > /dev/full && dd bs=1 count=1 2> /dev/null' "$program" < "$work/in"
agrees 'nothing more is read after a failed write' '\n' "$unwritten"

echo "tests/listing.sh: $cases cases, $failed failed"
[ "$failed" -eq 0 ]
