# What the scripts share that make packages: a repository of its own with the files that are here, and what is noted of it.
#
# Who sources it has set `here`, the top of this repository, and `place`, an empty folder.
: "${here:?}" "${place:?}"

GIT_AUTHOR_NAME=someone GIT_AUTHOR_EMAIL=someone@packages.debian.net GIT_AUTHOR_DATE='2026-01-02T03:04:05Z'
GIT_COMMITTER_NAME=$GIT_AUTHOR_NAME GIT_COMMITTER_EMAIL=$GIT_AUTHOR_EMAIL GIT_COMMITTER_DATE=$GIT_AUTHOR_DATE
export GIT_AUTHOR_NAME GIT_AUTHOR_EMAIL GIT_AUTHOR_DATE GIT_COMMITTER_NAME GIT_COMMITTER_EMAIL GIT_COMMITTER_DATE
unset SOURCE_DATE_EPOCH
readonly VERSION_FILE=crates/aegis/src/help.rt

# rt, of which nothing is wanted but its line
mkdir "$place/bin"
printf '#!/bin/sh\necho kit-0 logic 0\n' >"$place/bin/rt"
chmod +x "$place/bin/rt"
PATH=$place/bin:$PATH

# The files that git has here and that packages are made of, as they are, in a repository at $place/tree, with a folder for the program.
make_tree() {
    local tree=$place/tree
    mkdir "$tree" && (cd "$here" && { git ls-files -z -- . ':!crates' ':!trials' ':!tests'; git ls-files -z -- 'crates/*.edit' "$VERSION_FILE"; } |
        tar -c --null --ignore-failed-read -T -) | tar -x -C "$tree" && [ -f "$tree/$VERSION_FILE" ] &&
        git -C "$tree" init -q && git -C "$tree" add -A && git -C "$tree" commit -q -m first && mkdir "$tree/crates/aegis/out"
}

# What rt writes where all of the tree passes.
write_log() {
    sed -n 's/#.*//; s/^\([a-z0-9_]*\)[ :].*/rt: \1 proved/p' "$place/tree/crates.txt"
    (cd "$place/tree/crates" && printf 'rt: must-fail %s: refused, as it must be\n' */must-fail/*.edit | sed 's|/must-fail/|/|')
    echo '1 passed, 0 failed'
}

# Notes that the tree passed with the program, and rt wrote what $place/log has.
note_gate() {
    (cd "$place/tree" && .ci/note-gate write "$place/log" "$1" "$(.ci/note-build commit)")
}
