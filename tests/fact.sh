# Sourced by the parts of the tests that are shell scripts and count their tests in passed and failed.

# fact WHAT GOT EXPECTED: one test
fact() {
    if [ "$2" = "$3" ]; then
        passed=$((passed + 1))
    else
        failed=$((failed + 1))
        echo "$1: $2, not $3"
    fi
}

# commands_but NAME FOLDER: a folder with a link to every command of PATH but one, to run something without it
commands_but() {
    local folder folders
    mkdir -p "$2"
    IFS=: read -ra folders <<<"$PATH"
    for folder in "${folders[@]}"; do
        find -L "$folder/" -maxdepth 1 -type f -perm -1 ! -name "$1" -exec ln -s -t "$2" {} + 2>/dev/null # the first of a name stays
    done
}
