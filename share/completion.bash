# Completion of aegis and ae for bash: functions, commands, listings, options, the numbers of changes, and paths; and of the short names of
# profile.sh, which loads it, and of aediff, aeexport and aepass.
#
#     . /usr/local/share/bash-completion/completions/aegis
#
# What may be written is read once from `aegis --help`, and of ae from `ae --help` and `ae COMMAND --help`. Numbers and paths are read from the project of the current folder, or of that
# around it, where it can be read.

# The lines of the help: of the functions, as `-New_Change -File PATH`, and of the listings. They are read once.
_aegis_functions=()
_aegis_listings=()

_aegis_read() {
    local line
    [ "${#_aegis_functions[@]}" = 0 ] || return
    while IFS= read -r line; do
        case $line in
        '  -'*) _aegis_functions+=("${line:2}") ;;
        '  '[A-Z]*) _aegis_listings+=("${line:2}") ;;
        esac
    done < <(aegis --help 2>/dev/null)
}

# The names at the front of lines, each in full; and by its capitals in lower case, where something of it is written already.
_aegis_names() {
    local line name short
    for line in "$@"; do
        name=${line%% *}
        _aegis_offer "$name"
        short=${name//[^A-Z-]/}
        [ -z "${word#-}" ] || _aegis_offer "${short,,}"
    done
}

# Offers a name where what is written begins it, whatever its case is. Names of files come from whoever may write the folder, and bash
# puts what is offered into the command line as it is: so what has other characters than names have is passed over.
_aegis_offer() {
    local written=${word,,} LC_ALL=C
    case $1 in '' | *[!A-Za-z0-9._+/-]*) return ;; esac
    case ${1,,} in "$written"*) COMPREPLY+=("$1") ;; esac
}

# Offers what could be a path or a number: such a word would be an option if it began with `-`.
_aegis_offer_plain() {
    case $1 in -*) ;; *) _aegis_offer "$1" ;; esac
}

_aegis_offer_all() {
    local name
    while IFS= read -r name; do _aegis_offer_plain "$name"; done
}

# The line of the function that a word spells in full or by its capitals.
_aegis_line_of() {
    local asked=${1,,} entry name short
    asked=${asked#-}
    asked=-${asked#-}
    # `-` and `_` are one
    asked=-${asked//[-_]/}
    for entry in "${_aegis_functions[@]}"; do
        name=${entry%% *}
        short=${name//[^A-Z-]/}
        name=-${name//[-_]/}
        if [ "${name,,}" = "$asked" ] || [ "${short,,}" = "$asked" ]; then
            line=${entry%%   *}
            return
        fi
    done
}

# The options of a function's line; -Project goes with each but one, -REAson with those that add to a history.
_aegis_options() {
    local entry
    case $line in
    -New_PRoject*) ;;
    *) _aegis_names -Project ;;
    esac
    case $line in
    -New_Change_Undo*) ;;
    -New_Change* | -Develop_* | -Review_* | -Integrate_*) _aegis_names -REAson ;;
    esac
    for entry in ${line#"${line%% *}"}; do
        entry=${entry#[}
        entry=${entry%]}
        case $entry in -*) _aegis_names "$entry" ;; esac
    done
}

# The number that the words before give for -Change, or that of the develop directory around.
_aegis_find_change() {
    local at
    for ((at = 1; at < COMP_CWORD; at++)); do
        case ${COMP_WORDS[at],,} in
        -c | --c | -change | --change)
            change=${COMP_WORDS[at + 1]}
            [ "$change" != = ] || change=${COMP_WORDS[at + 2]}
            return
            ;;
        esac
    done
    case $PWD/ in
    *"/$home"/develop.[0-9]*)
        change=${PWD#*"/$home"/develop.}
        change=${change%%/*}
        ;;
    esac
}

# The folder of the project around.
_aegis_find_top() {
    case $PWD/ in
    */aegis.d/*)
        top=${PWD%%/aegis.d*}
        return
        ;;
    esac
    top=$PWD
    while [ -n "$top" ] && [ ! -d "$top/aegis.d/store" ]; do top=${top%/*}; done
}

# The names of the project's branches.
_aegis_branches() {
    local top='' folder
    _aegis_find_top
    for folder in "$top"/aegis.d/branch.*/store; do
        folder=${folder%/store}
        [ "${folder##*/branch.}" = '*' ] || printf '%s\n' "${folder##*/branch.}"
    done
}

# The numbers of the project's changes, in its folder `home`.
_aegis_changes() {
    sed -n 's/^changes = \[\(.*\)\];$/\1/p' "$top/$home/store/project" 2>/dev/null | tr -d ',' | tr ' ' '\n'
}

# The paths of the files that a state file lists, of those rows that go on so.
_aegis_rows() {
    sed -n 's/^files = //p' "$top/$home/store/$1" 2>/dev/null | grep -o -e "path = \"[^\"]*\"; $2" | sed 's/^path = "//; s/".*//'
}

# The files in the directory of a change.
_aegis_files() {
    (cd "$top/$home/develop.$1" 2>/dev/null && find . -type f ! -path ./aegis.log ! -path $'*\n*' | sed 's/^\.\///')
}

# The plain words that a function's line asks for.
_aegis_plain() {
    local change=''
    _aegis_find_change
    case $line in
    *' LISTING'*) _aegis_names "${_aegis_listings[@]}" ;;
    -CoPy_file_Undo*) _aegis_offer_all < <(_aegis_rows "change.$change" 'action = modify') ;;
    -ReMove_file_Undo*) _aegis_offer_all < <(_aegis_rows "change.$change" 'action = remove') ;;
    -New_Test_Undo*) _aegis_offer_all < <(_aegis_rows "change.$change" 'action = create; usage = test') ;;
    -New_File_Undo*) _aegis_offer_all < <(_aegis_rows "change.$change" 'action = create; usage = [sc]') ;;
    -CoPy_file* | -ReMove_file*) _aegis_offer_all < <(_aegis_rows files edit) ;;
    -New_File* | -New_Test*) _aegis_offer_all < <(_aegis_files "$change") ;;
    esac
}

# The words after a function, whose line is known.
_aegis_words() {
    local before=${COMP_WORDS[COMP_CWORD - 1],,} top=''
    _aegis_find_top
    # readline cuts words at `=`
    if [ "$word" = = ]; then word=''; elif [ "$before" = = ]; then before=${COMP_WORDS[COMP_CWORD - 2],,}; fi
    case $before in
    -c | --c | -change | --change) _aegis_offer_all < <(_aegis_changes) ;;
    -f | --f | -file | --file)
        compopt -o filenames 2>/dev/null
        _aegis_offer_all < <(compgen -f -- "$word")
        ;;
    *)
        case $word in
        -*) _aegis_options ;;
        *) _aegis_plain ;;
        esac
        ;;
    esac
}

# Takes the words that name a branch away, where the function stands after them.
_aegis_take_branch() {
    case ${COMP_WORDS[1],,} in -br | --br | -branch | --branch) ;; *) return ;; esac
    [ "$COMP_CWORD" -gt 2 ] || return
    home=aegis.d/branch.${COMP_WORDS[2]}
    COMP_WORDS=("${COMP_WORDS[0]}" "${COMP_WORDS[@]:3}")
    COMP_CWORD=$((COMP_CWORD - 2))
}

_aegis() {
    local word=${COMP_WORDS[COMP_CWORD]} line='' home=aegis.d
    COMPREPLY=()
    _aegis_read
    _aegis_take_branch
    if [ "$COMP_CWORD" = 1 ]; then
        _aegis_names "${_aegis_functions[@]}"
        if [ "$home" = aegis.d ]; then
            _aegis_names -BRanch
            _aegis_offer --help
            _aegis_offer --version
        else
            _aegis_names -BEGin -FINish
        fi
        return
    fi
    case ${COMP_WORDS[1],,} in
    -br | --br | -branch | --branch) _aegis_offer_all < <(_aegis_branches) ;;
    --help) [ "$COMP_CWORD" != 2 ] || _aegis_names "${_aegis_functions[@]}" ;;
    *)
        _aegis_line_of "${COMP_WORDS[1]}"
        [ -z "$line" ] || _aegis_words
        ;;
    esac
}

# The same after a short name of profile.sh, as aenc.
_aegis_short() {
    local word=${COMP_WORDS[COMP_CWORD]} line='' home=aegis.d
    COMPREPLY=()
    case $PWD/ in
    */aegis.d/branch.*)
        home=${PWD#*/aegis.d/}
        home=aegis.d/${home%%/*}
        ;;
    esac
    _aegis_read
    _aegis_line_of "-${COMP_WORDS[0]#ae}"
    [ -z "$line" ] || _aegis_words
}

# The numbers of the changes that are in one of these phases.
_aegis_changes_in() {
    local phase words=()
    for phase in "$@"; do words+=(-e "phase = $phase;"); done
    grep -l -x -F "${words[@]}" "$top/$home"/store/change.* 2>/dev/null | sed 's/.*change\.//'
}

# The number of a change after aediff and aepass, and the branch before it.
_aegis_number() {
    local word=${COMP_WORDS[COMP_CWORD]} home=aegis.d top=''
    COMPREPLY=()
    _aegis_take_branch
    _aegis_find_top
    case $COMP_CWORD-${COMP_WORDS[1]} in
    1-*) _aegis_offer_all < <(_aegis_changes) ;;
    2--br) _aegis_offer_all < <(_aegis_branches) ;;
    esac
}

# A folder, options and paths after aeexport.
_aegis_export() {
    local word=${COMP_WORDS[COMP_CWORD]} before=${COMP_WORDS[COMP_CWORD - 1]} home=aegis.d top='' option
    COMPREPLY=()
    _aegis_take_branch
    _aegis_find_top
    case $before-$word in
    -br-*) _aegis_offer_all < <(_aegis_branches) ;;
    --change-*) _aegis_offer_all < <(_aegis_changes_in awaiting_review being_reviewed awaiting_integration being_integrated) ;;
    --delta-*) ;;
    *--*) for option in --delta --change; do _aegis_offer "$option"; done ;;
    *) [ "$COMP_CWORD" = 1 ] || _aegis_offer_all < <(_aegis_rows files edit) ;;
    esac
}

# The commands of ae, and the options of each, as `ae --help` and `ae COMMAND --help` have them. They are read once.
declare -gA _aegis_of_ae=()
_aegis_read_ae() {
    [ -z "${_aegis_of_ae[$1]-}" ] || return
    if [ "$1" = commands ]; then
        _aegis_of_ae[$1]=$(command ae --help 2>/dev/null | sed -n 's/^    \([a-z][a-z]*\) .*/\1/p')
    else
        _aegis_of_ae[$1]=$(command ae "$1" --help 2>/dev/null | grep -o -E -e '(^|[ [,])--?[a-z][a-z-]*' | tr -d ' [,' | sort -u)
    fi
}

# The plain words of a command of ae.
_aegis_plain_of_ae() {
    case $1 in
    begin) _aegis_offer_all < <(_aegis_changes_in awaiting_development) ;;
    use | merge) _aegis_offer_all < <(_aegis_changes_in being_developed) ;;
    finish) _aegis_offer_all < <(_aegis_changes_in being_developed being_integrated) ;;
    review) _aegis_offer_all < <(_aegis_changes_in awaiting_review being_reviewed) ;;
    log) _aegis_offer_all < <(_aegis_rows files edit) ;;
    status) _aegis_offer_all < <(_aegis_changes) ;;
    diff)
        _aegis_offer_all < <(_aegis_changes)
        _aegis_offer_all < <(_aegis_rows files edit)
        ;;
    esac
}

# A command of ae, its options, and the numbers and paths that it takes.
_aegis_ae() {
    local word=${COMP_WORDS[COMP_CWORD]} before=${COMP_WORDS[COMP_CWORD - 1]} home=aegis.d top='' name
    COMPREPLY=()
    case $PWD/ in
    */aegis.d/branch.*)
        home=${PWD#*/aegis.d/}
        home=aegis.d/${home%%/*}
        ;;
    esac
    _aegis_find_top
    case $before in
    -br | --branch)
        _aegis_offer_all < <(_aegis_branches)
        return
        ;;
    -c | --change)
        _aegis_offer_all < <(_aegis_changes)
        return
        ;;
    --cause)
        for name in {ex,in}ternal_{bug,enhancement,improvement} chain; do _aegis_offer "$name"; done
        return
        ;;
    esac
    _aegis_take_branch
    if [ "$COMP_CWORD" = 1 ]; then
        _aegis_read_ae commands
        for name in ${_aegis_of_ae[commands]} --help --version -br; do _aegis_offer "$name"; done
    elif [ "${word#-}" != "$word" ]; then
        _aegis_read_ae "${COMP_WORDS[1]}"
        for name in ${_aegis_of_ae[${COMP_WORDS[1]}]}; do _aegis_offer "$name"; done
    else
        _aegis_plain_of_ae "${COMP_WORDS[1]}"
    fi
}

complete -F _aegis aegis
complete -F _aegis_ae ae
complete -F _aegis_number aediff aepass
complete -o default -F _aegis_export aeexport
complete -F _aegis_short aena aera aend aerd aenrv aerrv aeni aeri aenpr aepa aenc aeca aencu aedb aedbu aeb aede aedeu aerb aerbu \
    aerpass aerpu aerfail aeib aeibu aeipass aeifail aecp aecpu aenf aenfu aent aentu aerm aermu aet ael aescr aegen aeaud aerep aeds aedr
