# What ./block and the installed `cizborg` share: how they run the program, bound its memory, and help where it refuses. It is sourced by
# each of them, which sets first
#
#     name      its own name, which lines on standard error begin with
#     program   the executable
#     documents the folder of the documents: the guide, and the JSON Schemas in schema/
#     tools     the folder of the tools
#
# The program's standard output and its status stay as they are. What is said beside them goes to standard error.

# Statuses that the program never ends with: there is no executable, a try got no answer, the memory that was asked for is none.
NOT_BUILT=70
NO_ANSWER=71
NO_MEMORY=72

tell() {
    echo "$name: $*" >&2
}

# The forms of words, as the guide lists them, each with what it does.
forms() {
    sed -n '/^## Commands$/,/^##* [^C]/s/^| `\([^`]*\)` | \(.*\) |$/\1|\2/p' "$documents"/GUIDE*.md | tr -d '`' |
        while IFS='|' read -r form does; do
            printf '    %s %-34s %s\n' "$name" "$form" "$does"
        done
}

# Is the first word that of a tool of the workbench?
is_tool() {
    case ${1-} in
        '' | *[!a-z]*) return 1 ;;
    esac
    [ -e "$tools/cizborg/commands/$1.py" ]
}

# Is one of the words a -?
asks_input() {
    for word in "$@"; do
        [ "$word" != - ] || return 0
    done
    return 1
}

# A word - stands for standard input, which the program doesn't read: these words are answered with a copy of it in its place.
answer_input() {
    held=$(mktemp -d) || exit "$NOT_BUILT"
    trap 'rm -rf "$held"' EXIT
    trap 'exit "$NOT_BUILT"' INT TERM HUP
    cat >"$held/input"
    for word in "$@"; do
        shift
        [ "$word" != - ] || word=$held/input
        set -- "$@" "$word"
    done
    "$0" "$@" </dev/null
    exit
}

# Tools prove nothing, and ask the program.
run_tool() {
    command -v python3 >/dev/null || { tell "the tools need python3"; exit "$NOT_BUILT"; }
    BLOCK_PROGRAM=$program exec python3 -B "$tools/cizborg" "$@"
}

# The forms of the tools, where there are any.
show_tools() {
    [ -d "$tools/cizborg" ] && command -v python3 >/dev/null || return 0
    echo
    echo "These are further tools. They prove nothing, and say on which answers of the program they rest. Each says more with --help:"
    echo
    python3 -B "$tools/cizborg" --forms | sed "s/^    block /    $name /"
}

# The first part of the help.
show_forms() {
    echo "$name analyses sets of real-time tasks that share resources. Give it words of one of these forms. What the program answers to them is proved:"
    echo
    forms
    echo
    echo "SET, CERT, JOBS and ROWS are paths of files. ${documents}/GUIDE.md says what they hold, what each answer means, and which status comes with it."
}

# The digest of a file, as the system tells it.
digest_of() {
    if command -v sha256sum >/dev/null; then
        sha256sum <"$1" | cut -d ' ' -f 1
    else
        shasum -a 256 <"$1" | cut -d ' ' -f 1
    fi
}

# Looks whether BLOCK_MEMORY is a bound under which the program starts, and ends where it isn't: the system would kill the program, or its
# loader would fail. Without words it ends with status 2, or with 7 where there is no memory for its answer.
check_memory() {
    case $BLOCK_MEMORY in
        unlimited) return ;;
        '' | *[!0-9]*)
            tell "BLOCK_MEMORY is \"$BLOCK_MEMORY\", and should be a number of KiB, or \"unlimited\""
            exit "$NO_MEMORY"
            ;;
    esac
    # the outer shell says where the system kills the program, which nobody needs to see
    (
        (ulimit -c 0 && ulimit -v "$BLOCK_MEMORY" && exec "$program") </dev/null
        exit "$?"
    ) >/dev/null 2>&1
    case $? in
        2 | 7) ;;
        *)
            tell "the program doesn't start under BLOCK_MEMORY=$BLOCK_MEMORY, which is in KiB: 65536 serves"
            exit "$NO_MEMORY"
            ;;
    esac
}

# The program with the given words, in at most 4 GiB of memory, or in what BLOCK_MEMORY says. Where the system itself gives less, that stays.
run_bounded() (
    ulimit -v "${BLOCK_MEMORY:-4194304}" 2>/dev/null || [ "$(ulimit -v)" != unlimited ] || tell "the memory isn't bounded: this system can't"
    exec "$program" "$@"
)

# Says what may help after a status. The tool reads the inputs again; where it can't help, or there is no Python, a line says less.
# The first argument is the status, the second the answer where it is known, the others are the words.
explain() {
    status=$1
    answer=$2
    shift 2
    case $status in
        2 | 3 | 4) ;;
        7)
            tell "there was not enough memory: give it a smaller input, or more memory by BLOCK_MEMORY, in KiB"
            return
            ;;
        *) return ;;
    esac
    if command -v python3 >/dev/null && python3 -B "$tools/explain" "$name" "$documents" "$status" "$answer" "$@" >&2; then
        return
    fi
    case $status in
        2)
            tell "these words have no form; the forms are:"
            forms >&2
            ;;
        4) tell "a read or a write failed: is the path a file that you may read, and can standard output take the answer?" ;;
    esac
}

# Runs the program with the given words, says what may help, and ends with its status. A refusal is asked for again, since the answer went
# to standard output as it came.
answer_words() {
    [ -z "${BLOCK_MEMORY+set}" ] || check_memory
    run_bounded "$@"
    status=$?
    answer=
    [ "$status" -ne 3 ] || answer=$(run_bounded "$@" 2>/dev/null </dev/null)
    explain "$status" "$answer" "$@"
    exit "$status"
}
