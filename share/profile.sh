# Short names for the functions of aegis, for sh and bash: `aenc` for `aegis -nc`, `aedb` for `aegis -db`, and so on.
#
#     . /usr/local/share/aegis/profile.sh
#
# The names are made of the functions that `aegis --help` lists: `ae`, and the capitals of the function in lower case. They do a
# little more than the program:
#
# - They find the project from a folder below it, and the change from its develop directory: in aegis.d/develop.10, `aeb` is
#   `aegis -b -c 10` in the project's folder. In aegis.d/branch.b1 and below it they are of that branch: `aegis -br b1 -b -c 10`.
# - There, paths are relative to where you stand. Elsewhere a path that begins with aegis.d/develop.N/ is taken without that.
# - Where a build or a test fails, the end of its log is shown, unless standard error is a terminal, on which the program showed what it
#   wrote; where a fault came, what aewhy finds.
# - A listing that has waited in vain for another command, or that may not read the lock, is made from a copy of the project's records.
# - Outside a develop directory the change is that which `ae use N` made this shell's own (AEGIS_CHANGE), where one was.
#
# Besides there are `ae use N`, which sets that, `aecd [N]`, which goes to a develop directory, and in bash the completion.

# Where shown.pl is: beside aewhy, or where that is installed.
_ae_lib=$(command -v aewhy) && _ae_lib=$(dirname "$(readlink -f "$_ae_lib")")
[ -e "$_ae_lib/shown.pl" ] || _ae_lib=$(dirname "$_ae_lib")/share/aegis

# The folder of the project around the current one: what is below aegis.d belongs to the project around that.
_ae_top() {
    case $PWD/ in
    */aegis.d/*)
        printf '%s\n' "${PWD%%/aegis.d*}"
        return
        ;;
    esac
    _ae_at=$PWD
    while [ -n "$_ae_at" ] && [ ! -d "$_ae_at/aegis.d/store" ]; do _ae_at=${_ae_at%/*}; done
    printf '%s\n' "${_ae_at:-$PWD}"
}

# A path, as one who stands at the place $2 of the develop directory means it.
_ae_path() {
    case $1 in
    aegis.d/develop.[0-9]*/* | aegis.d/branch.*/develop.[0-9]*/*)
        _ae_rest=${1#aegis.d/branch.*/}
        _ae_rest=${_ae_rest#*develop.}
        printf '%s\n' "${_ae_rest#*/}"
        ;;
    *) printf '%s\n' "${2:+$2/}${1#./}" ;;
    esac
}

# A listing, from a copy of the records in $home: a script whose run goes on holds the lock, and changes none of them.
_ae_list() (
    copy=$(mktemp -d) || exit 3
    trap 'rm -rf "$copy"' EXIT
    mkdir -p "$copy/$home/store" || exit 3
    for file in "$home"/store/*; do
        [ "$file" = "$home/store/pack" ] || cp "$file" "$copy/$home/store" || exit 3
    done
    cd "$copy" && aegis "$@"
)

# Runs a function, in the project that is around: its short name, its words in the help, and the words that are given.
_ae() (
    name=$1 wants=$2 here=$PWD home=aegis.d branch='' change='' below='' is_given='' before=''
    shift 2
    # shellcheck disable=SC3013 # each sh that a system comes with has it
    [ . -ef "$here" ] || echo "ae$name: this folder was renamed or removed: cd ." >&2
    case $name in npr | gen) aegis "-$name" "$@"; exit ;; esac
    top=$(_ae_top)
    case $here/ in
    "$top"/aegis.d/branch.*)
        branch=${here#"$top"/aegis.d/branch.}
        branch=${branch%%/*}
        home=aegis.d/branch.$branch
        ;;
    esac
    case $here/ in
    "$top/$home"/develop.[0-9]*)
        change=${here#"$top/$home"/develop.}
        below=${change#"${change%%/*}"}
        below=${below#/}
        change=${change%%/*}
        case $change in *[!0-9]*) change='' ;; esac
        ;;
    esac
    [ -n "$change" ] || change=${AEGIS_CHANGE-}
    cd "$top" || exit 3
    left=$#
    while [ "$left" -gt 0 ]; do
        word=$1
        shift
        left=$((left - 1))
        case $before in
        -[fF] | --[fF] | -[fF][iI][lL][eE] | --[fF][iI][lL][eE]) [ "$here" = "$top" ] || word=${here#"$top"/}/$word ;;
        -[cCpP] | --[cCpP] | -[cC][hH]* | --[cC][hH]* | -[pP][rR]* | --[pP][rR]* | -[dD][eE][lL]* | --[dD][eE][lL]*) ;;
        *)
            case $word in
            -[cC] | --[cC] | -[cC]=* | --[cC]=* | -[cC][hH]* | --[cC][hH]*) is_given=yes ;;
            -*) ;;
            *) case $wants in *PATH..*) word=$(_ae_path "$word" "$below") ;; esac ;;
            esac
            ;;
        esac
        before=$word
        set -- "$@" "$word"
    done
    if [ -z "$is_given" ] && [ -n "$change" ]; then
        case $wants in
        *'[-Change N]'*) case ${1-} in [cC]*) set -- "$@" -c "$change" ;; esac ;;
        *'-Change N'*) set -- "$@" -c "$change" ;;
        esac
    fi
    begun=$(mktemp) || exit 3
    trap 'rm -f "$begun"' EXIT
    if [ "$name" = l ]; then
        AEGIS_WAIT=${AEGIS_WAIT-1} aegis ${branch:+-br "$branch"} -l "$@" 2>"$begun"
        status=$?
        if [ "$status" = 3 ] && ! flock -n "$home/lock" true 2>/dev/null && _ae_list ${branch:+-br "$branch"} -l "$@"; then exit 0; fi
        cat "$begun" >&2
    else
        aegis ${branch:+-br "$branch"} "-$name" "$@"
        status=$?
    fi
    case $name$status in
    b1 | t1)
        [ -t 2 ] || find "$home" -maxdepth 2 -name aegis.log -newer "$begun" | head -n 1 | while read -r log; do
            printf '== the end of %s:\n' "$log"
            tail -n 20 "$log"
        done >&2
        ;;
    *3 | *4) if command -v aewhy >/dev/null 2>&1; then aewhy >&2; fi ;;
    esac
    exit "$status"
)

# `ae use N` makes a change the default of this shell, and `ae use` takes it back. All else is the command's.
ae() {
    # shellcheck disable=SC3013 # each sh that a system comes with has it
    [ . -ef "$PWD" ] || echo "ae: this folder was renamed or removed: cd ." >&2
    if [ "${1-}" != use ]; then
        command ae "$@"
        return
    fi
    _ae_said=$(AE_SHELL=profile command ae "$@") || return
    case $_ae_said in
    '') unset AEGIS_CHANGE ;;
    *[!0-9]*) printf '%s\n' "$_ae_said" ;;
    *)
        AEGIS_CHANGE=$_ae_said
        export AEGIS_CHANGE
        ;;
    esac
}

# Goes to the develop directory of a change, which is the shell's own where none is named, or to the project's folder where there is
# none either; in a branch to those of the branch.
aecd() {
    _ae_at=$(_ae_top)
    case $PWD/ in
    "$_ae_at"/aegis.d/branch.*)
        _ae_home=${PWD#"$_ae_at"/aegis.d/}
        _ae_home=aegis.d/${_ae_home%%/*}
        ;;
    *) _ae_home=aegis.d ;;
    esac
    _ae_number=${1-${AEGIS_CHANGE-}}
    cd "$_ae_at${_ae_number:+/$_ae_home/develop.$_ae_number}" || return
}

if [ -n "${BASH_VERSION-}" ]; then
    for _ae_file in "$_ae_lib/completion.bash" "$_ae_lib/../bash-completion/completions/aegis"; do
        # shellcheck source=completion.bash
        if [ -e "$_ae_file" ]; then . "$_ae_file"; fi
    done
fi

if command -v aegis >/dev/null 2>&1; then
    eval "$(aegis --help | sed -n 's/^  -\([^ ]*\)\(.*\)/\1 \2/p' | sed "s/   .*//; s/'//g" | while read -r name wants; do
        name=$(printf '%s\n' "$name" | sed 's/[^A-Z]//g' | tr '[:upper:]' '[:lower:]')
        printf "ae%s() { _ae %s '%s' \"\$@\"; }\n" "$name" "$name" "$wants"
    done)"
fi
