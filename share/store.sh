# Functions by which aeexport, aediff and aepass read the files of a store, as docs/FORMATS.md says. A script reads this file by `.`.
#
# The script sets `program`, `branch` and `home` before, which is aegis.d or the folder of a branch in it, and says by `fail` what is
# wrong. Words that may be many are handed on in files, since one word of a command has no more than 128 KiB.
# shellcheck disable=SC2154 # what the script sets

is_number() {
    case $1 in '' | *[!0-9]* | ??????*) return 1 ;; esac
}

is_branch() {
    case $1 in '' | [!A-Za-z]* | *[!A-Za-z0-9._-]*) return 1 ;; esac
}

# A number without its leading zeros, as the names of files have it.
plain_number() {
    printf '%s\n' "$1" | sed 's/^0*\(.\)/\1/'
}

# The folder in which the records are read, where that isn't the store itself.
records=''

# Takes the project's lock. First the program looks at all records, by a listing: it says what is wrong with them, and puts right what
# a stop left. Where there is no lock's file and none may be made, as in a copy of the store, it reads without, and so is it done here.
take_lock() {
    "$program" ${branch:+-br "$branch"} -l project_changes >/dev/null || fail "the project can't be read"
    if [ -e "$home/lock" ] || [ -L "$home/lock" ] || [ -w "$home" ]; then
        { [ -f "$home/lock" ] && [ -r "$home/lock" ]; } || fail "$home/lock can't be read"
        case ${AEGIS_WAIT:-5} in *[!0-9]*) patience=5 ;; *) patience=${AEGIS_WAIT:-5} ;; esac
        exec 9<"$home/lock"
        flock -w "$patience" 9 || fail "another command works in this project"
    fi
}

give_lock() {
    exec 9<&-
}

# Says that a stop left a command half done, where the file `gate` says so.
needs_closed_gate() {
    [ "$(head -c 1 "${records:-$home/store}/gate" 2>/dev/null | od -An -tu1 | tr -d ' ')" != 1 ] || fail "a command was stopped: give any other first"
}

# Copies the records of a project and of its change $2 into the empty folder $1, where they are read from then on. The lock is held for
# this copy alone, by one process, so that nobody waits for what is done with them.
copy_records() {
    records=$1
    set -- gate project files "change.$2"
    take_lock
    for state in "$@"; do
        shift
        [ ! -e "$home/store/$state" ] || set -- "$@" "$home/store/$state"
    done
    cp -- "$@" "$records" || fail "the records can't be copied"
    give_lock
    needs_closed_gate
}

# The value of a field of a state file, where it has one line.
field() {
    sed -n "s/^$2 = \(.*\);\$/\1/p" "${records:-$home/store}/$1"
}

# The delta as which a change was integrated.
delta_of() {
    field project deltas | tr '{' '\n' | sed -n "s/^ delta = \([0-9]*\); change = $1; .*/\1/p"
}

# Whether a change is in a phase in which its files are frozen.
is_frozen() {
    case $(field "change.$1" phase) in
    awaiting_review | being_reviewed | awaiting_integration | being_integrated) ;;
    *) return 1 ;;
    esac
}

# Says that a change has nothing frozen, where it hasn't: it isn't there, was integrated, or is still developed.
needs_frozen() {
    [ -s "${records:-$home/store}/change.$1" ] || fail "there is no change $1"
    integrated=$(delta_of "$1")
    [ -z "$integrated" ] || fail "change $1 is delta $integrated: use --delta $integrated"
    is_frozen "$1" || fail "change $1 has frozen no file"
}

# The rows of a list of files, a line each: the path, where its bytes begin in the pack in units of 64, how many they are, and their
# digest; or the path and `-` where a change removes it. Of the state file `files` they are those of the last delta up to that which
# is named; of a change, those that it has. A line that isn't as the program writes it is an error.
rows() {
    field "$1" files | tr '{' '\n' | awk -v delta="$2" '
        function wrong() { bad = 1; exit 1 }
        function put() {
            if (path != "" && there) print path, at, len, digest
            else if (path != "" && removed) print path, "-"
            path = ""
        }
        function word(name,    rest) {
            rest = $0
            if (!sub(".*[ ;]" name " = ", "", rest)) wrong()
            sub(/;.*/, "", rest)
            gsub(/"/, "", rest)
            return rest
        }
        NR == 1 { if ($0 != "[" && $0 != "[]") wrong(); next }
        /^ path = "[A-Za-z0-9._+\/-]*"; edit = [0-9]*; past = \[$/ { put(); path = word("path"); there = 0; next }
        /^ path = "[A-Za-z0-9._+\/-]*"; action = [a-z]*; usage = [a-z]*; origin = [0-9]*; version = $/ {
            put(); path = word("path"); there = 0; counts = 1; removed = word("action") == "remove"; next
        }
        /^ delta = [0-9]*; usage = [a-z]*; version = $/ { counts = delta == "" || word("delta") + 0 <= delta + 0; next }
        /^ }; }/ { if (counts) there = 0; next }
        /^ number = [0-9]*; at = [0-9]*; length = [0-9]*; digest = "[0-9a-f]*"; }; }/ {
            if (counts) { there = 1; at = word("at"); len = word("length"); digest = word("digest") }
            next
        }
        { wrong() }
        END { if (bad) exit 1; put() }'
}

# The digest of the rows of a change, which `-l Change_Evidence` has of the runs that were made on them.
digest_of_rows() {
    awk '{ print $1, (NF == 2 ? "-" : $3 " " $4) }' "$1" | sha256sum | cut -c 1-64
}

# The rows of the file $1 whose paths the lines of the file $2 begin with.
rows_of_paths() {
    awk 'FILENAME == ARGV[1] { asked[$1] = 1; next } $1 in asked' "$2" "$1"
}

# Writes the files of these rows into the current folder, which is empty and nobody else's, and compares each with its digest. The
# second word is the pack by its whole path, and the third a folder for lists. The status is 1 where a file has another digest, and then
# the list `failed` says which.
put_files() {
    awk 'NF == 4 { print "./" $1 }' "$1" | sed -n 's/\/[^/]*$//p' | sort -u | xargs -r mkdir -p -- || fail "no folders can be made"
    awk 'NF == 4' "$1" | write_files "$2"
    awk 'NF == 4 { print $4 "  ./" $1 }' "$1" >"$3/sums"
    if [ -s "$3/sums" ] && ! sha256sum -c --quiet "$3/sums" >"$3/said" 2>/dev/null; then
        sed -n 's/^\.\/\(.*\): FAILED.*/"\1" isn'\''t what the project keeps the digest of/p' "$3/said" >"$3/failed"
        return 1
    fi
}

# Makes the files of the rows that it reads, of the bytes that this pack has. What begins with #! can be run, as in a directory of a
# change. A file without bytes may have any place; what can't be read or written is found by its digest.
write_files() {
    perl -e '
        use Fcntl;
        sysopen(my $pack, shift(@ARGV), O_RDONLY) and binmode($pack);
        while (<STDIN>) {
            my ($path, $at, $length) = split;
            my ($bytes, $has) = ("", 1);
            sysseek($pack, 64 * $at, 0) if $length;
            $has = sysread($pack, $bytes, $length - length($bytes), length($bytes)) while $has && length($bytes) < $length;
            sysopen(my $file, "./$path", O_WRONLY | O_CREAT | O_EXCL, $bytes =~ /^#!/ ? 0777 : 0666) or next;
            binmode($file);
            print $file $bytes;
        }' "$1" 2>/dev/null
}
