# words.bash: what the scripts of this folder in bash do with their words before anything else. They source it.

# take_words LEAST MOST USAGE WORD..: answers `--help`, where it is the one word, with the calling script's head comment.
# Refuses fewer words than LEAST, more than MOST, and each that begins with '-', by the usage line and status 2.
take_words() {
    local least=$1 most=$2 usage=$3 word strange=
    shift 3
    if [ "$*" = --help ]; then
        sed -n '2,/^[^#]/s/^# \{0,1\}//p' "$0"
        exit 0
    fi
    for word; do
        [ "${word:0:1}" = - ] && strange=$word
    done
    if [ -n "$strange" ] || [ $# -lt "$least" ] || [ $# -gt "$most" ]; then
        echo "usage: tools/$usage" >&2
        exit 2
    fi
}
