# shellcheck shell=bash
# The form of a transcript, for scripts that run one and source this.
#
# A line `$ COMMAND` is a command line for bash; the lines `> LINE` after it are its input; the other lines up to the next
# `$ ` are what it prints. Empty lines and lines that begin with `# ` say nothing. In a document a transcript is indented, a
# line that isn't ends the step, and `dmstack session WORDS` begins one too, on ./dmstack.

# each_step FILE INDENT FUNCTION..: calls the function for each step, with its parts in $command, $input and $wanted.
each_step() {
    local file=$1 indent=$2 line command='' input='' wanted=''
    shift 2
    while IFS= read -r line <&8; do
        if [ "${line#"$indent"}" = "$line" ] && [ -n "$indent" ]; then
            [ -z "$command" ] || "$@"
            command='' input='' wanted=''
            continue
        fi
        line=${line#"$indent"}
        [ -z "$indent" ] || [ "${line#dmstack session}" = "$line" ] || line="$ ./$line"
        case $line in
        '$ '*)
            [ -z "$command" ] || "$@"
            command=${line#'$ '} input='' wanted=''
            ;;
        '> '*) input+=${line#'> '}$'\n' ;;
        '' | '# '*) ;;
        *) wanted+=$line$'\n' ;;
        esac
    done 8< "$file"
    [ -z "$command" ] || "$@"
}
