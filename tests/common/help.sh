# Sourced by the checks in bash: if the first argument is --help, prints the comment at the head of the script and ends.
case ${1-} in
-h | --help)
    sed -n '2,/^[^#]/s/^# \{0,1\}//p' "$0"
    exit 0
    ;;
esac
