# What the tools that are written for bash have in common. A tool sets `usage`, whose first line is 'usage: ..', and sources this. `top` is then the root of the repository, in which `crates_of` and all
# that uses it must be run. A tool that fails says why in one line on standard error, and its status is not 0: 1, or 2 where an argument or the input is wrong. A tool whose output nobody reads any more
# ends with 141, as others do in a pipe.
set -euo pipefail
# What is said to a standard error that is closed is lost, and nothing fails for that.
{ : 3>&2; } || exec 2> /dev/null
export FILKOTAR_TOOL="tools/${0##*/}"
top=$(cd "$(dirname "$(readlink -f "$0")")/.." && pwd)

failed() {
    printf '%s: %s\n' "$FILKOTAR_TOOL" "$1" >&2
    exit "${2-1}"
}

# Prints the help where it is asked for; fails where an argument is a flag that is not known, or there are more or fewer than so many.
expect() {
    local it
    for it in "${@:2}"; do
        case $it in
            -h | --help) say "$usage"; exit 0 ;;
            - | -[0-9]*) ;;
            -*) failed "$it is no argument that is known: --help tells them" 2 ;;
        esac
    done
    [ $# -gt "$1" ] || failed "an argument is missing: ${usage%%$'\n'*}" 2
    [ $# -le $(($1 + 1)) ] || failed "there is an argument too many, ${@:$1+2:1}: --help tells them" 2
}

writable() {
    { : 3>&1; } 2> /dev/null || failed 'standard output: it is closed'
}

say() {
    writable
    printf '%s\n' "$1" 2> /dev/null || failed 'standard output: it cannot be written'
}

readable() {
    { : 3<&0; } 2> /dev/null || failed 'standard input: it is closed' 2
    no_folder
}

no_folder() {
    [ ! -d /dev/stdin ] || failed 'standard input: Is a directory' 2
}

python() {
    command -v python3 > /dev/null || failed "there is no command 'python3' here, which $FILKOTAR_TOOL needs"
}

# Runs a script of Python's in place of this tool: script NAME ARGUMENT..
script() {
    python
    no_folder
    exec python3 "$top/tools/$1" "${@:2}"
}

# The input of a program in a file, as a script of Python's writes it: written SCRIPT ARGUMENT.. for a file whose name is then in `input`.
written() {
    python
    input=$(mktemp 2> /dev/null) || failed 'a temporary file cannot be made'
    trap 'rm -f "$input"' EXIT
    FILKOTAR_OUTPUT='a temporary file' python3 "$top/tools/$1" "${@:2}" > "$input"
}

# Runs a program on standard input. No program tells by its status that its output could not be written; `cat` does.
program() {
    local path told status
    writable
    readable
    path=$("$top/tools/built" "$1" < /dev/null) || exit 1
    exec 3>&1
    set +e
    told=$("$path" | LC_ALL=C cat 2>&1 >&3; exit "$((PIPESTATUS[1] ? PIPESTATUS[1] : PIPESTATUS[0]))")
    status=$?
    set -e
    case $status in
        0) ;;
        127) failed "$1 ended with 127: it is built for x86-64-v2, and this processor is older" ;;
        141) exit 141 ;;
        *) [ -z "$told" ] || failed "standard output: ${told##*: }"
           failed "$1 ended with $status" ;;
    esac
}

# The crates that one is made of, itself among them, in the order of crates.txt.
crates_of() {
    awk -v crate="$1" '
        { line[NR] = $0 }
        END {
            wanted[crate]
            for (n = NR; n > 0; n--) {
                split(line[n], word); name = word[1]; sub(/:$/, "", name)
                if (!(name in wanted)) continue
                found = name "\n" found
                sub(/^[^:]*:/, "", line[n]); count = split(line[n], word)
                for (m = 1; m <= count; m++) wanted[word[m]]
            }
            printf "%s", found
        }' crates.txt
}

# The checksum of all sources that a crate is made of, and of what crates.txt says of it.
sources() {
    local it all
    all=$(crates_of "$1")
    {
        for it in $all; do
            grep "^$it[ :]" crates.txt
        done
        for it in $all; do
            find "crates/$it" -path "crates/$it/out" -prune -o -type f \( -name '*.rt' -o -name '*.antt' \) -print0
        done | LC_ALL=C sort -z | xargs -0 sha256sum
    } | sha256sum
}

# Of the toolchain: where its command is, how large it is, and when it was made.
toolchain() {
    stat -L -c '%n %s %Y' "$(command -v rt)" 2> /dev/null
}

# Those of the crates that are not proved here as they now are. target/proved tells; a proof that rt kept elsewhere it does not know.
unproved() {
    local it
    for it in "$@"; do
        { [ -n "$(ls -A "crates/$it/out")" ] && [ "$(sources "$it"; toolchain)" = "$(cat "target/proved/$it")" ]; } 2> /dev/null || printf '%s ' "$it"
    done
}

# Whether a file is what was built of a crate as it now is, by the toolchain that there is: the file of this name in target/built tells.
current() {
    [ -f "$2" ] && [ -f "target/built/$3" ] && [ "$(sources "$1"; sha256sum < "$2"; toolchain || sed -n 3p "target/built/$3")" = "$(cat "target/built/$3")" ]
}

# Keeps of what a file was built: of the sources as they were when the proving began, so that a source which has changed since is proved anew.
keep() {
    { echo "$made_of"; sha256sum < "$1"; toolchain; } > "target/built/$2" 2> /dev/null || failed "target/built/$2 cannot be written"
}

# How many words there are.
count() {
    echo $#
}

# Of the crates that are left, those that still are when rt has come to one: it begins with a crate after all below it.
without() {
    local it todo=$2
    for it in $(crates_of "$1"); do
        todo=${todo/ $it / }
    done
    echo "$todo"
}

# A crate is proved here as it now is; where that cannot be kept, it is only told anew.
noted() {
    { mkdir -p target/proved && { sources "$1"; toolchain; } > "target/proved/$1"; } 2> /dev/null || true
}

# prove CRATE COMMAND..: has rt prove and build a crate and those below it. Each is named as it is proved, with how many are left; where one is not, what rt says is shown. `made_of` is then
# the checksum of the sources, and `narrowed` what rt says of the processors that it compiled for, where these are not all.
prove() {
    local crate=$1 it='' all todo said=() line before='' broken='' ended=''
    narrowed=
    command -v rt > /dev/null || failed "there is no command 'rt' here: the Rattle toolchain is needed to build $crate"
    all=$(crates_of "$crate")
    made_of=$(sources "$crate")
    for it in $(printf 'crates/%s/out ' $all) target/built; do
        { mkdir -p "$it" && [ -w "$it" ]; } 2> /dev/null || failed "$it cannot be written: $crate is not built"
    done
    todo=" $(unproved $all)"
    it=$(count $todo)
    if [ "$it" -gt 0 ]; then
        echo "$FILKOTAR_TOOL: $crate is proved before it is built: crates to prove: $it, from nothing about $((it / 4 + 1)) min" >&2
    else
        echo "$FILKOTAR_TOOL: $crate is built, which takes some seconds" >&2
    fi
    while IFS= read -r line; do
        case $line in
            'rt: '*': begins with what a check kept '*)
                before=${line#rt: } before=${before%%:*}
                todo=$(without "$before" "$todo")
                echo "    proved before: $before; left: $(count $todo)" >&2 ;;
            'rt: waiting '*) echo "    ${line#rt: }" >&2 ;;
            'crate '*': modules '*) it=${line#crate } it=${it%%:*} ;;
            'logic=proved '*)
                noted "$it"
                todo=$(without "$it" "$todo")
                [ "$it" = "$before" ] || echo "    proved: $it; left: $(count $todo)" >&2
                said=()
                [[ $line != *' cpu='* ]] || narrowed=$line ;;
            'logic=not-proved'*) broken=$it ;;
            'rt ends with 0')
                ended=yes
                [ -z "${todo// /}" ] || echo "    proved before: $crate; left: 0" >&2 ;;
            'rt ends with '*)
                [ -z "$broken" ] || [ "$broken" = "$crate" ] || crate="$broken is not proved, and $crate"
                [ ${#said[@]} -gt 0 ] || failed "$crate is not built; rt said nothing"
                printf '%s\n' "${said[@]}" >&2
                failed "$crate is not built; rt said the above" ;;
            'statements '* | 'library '* | 'logic '* | 'fn '*': proved' | 'struct '*': proved' | 'enum '*': proved' | 'impl '*': proved') ;;
            *) said+=("$line") ;;
        esac
    done < <(cd "crates/$crate" && "${@:2}" < /dev/null 2>&1 && echo 'rt ends with 0' || echo 'rt ends with 1')
    [ -n "$ended" ] || failed "$crate is not built; rt was stopped"
    for it in $all; do
        noted "$it"
    done
}
