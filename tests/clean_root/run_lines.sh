# Runs the lines of a file, each as it is, and shows it first: . run_lines.sh FILE. A shell in a clean root sources this. Each
# line has to succeed; where utf8_repair replaced something, its status is 1.
# shellcheck shell=bash
some_command() {
    printf 'a\342\230Z'
}
while read -r line <&3; do
    echo "$line"
    eval "$line" || [ "$? $line" = '1 some_command | utf8_repair > repaired.txt' ] || exit 1
done 3< "$1"
