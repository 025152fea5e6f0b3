# Read by payd, and by what tools/install puts in its place, with the folder of the tools in $tools. A first word of the
# file words names a tool, which is run in the place of the program, as the tool named is for what the program says with
# names. A node or an export for which no genesis is named has group, keys and ports from its member's folder: that of
# --data, or $PAYD_DATA, or ./member. Such a node dials always.
reads="reads frames from standard input until its end (Ctrl-D); payd --help says what else it does"
[ "${1-}" != help ] || { shift && set -- "$@" --help; }
[ $# != 0 ] || [ ! -t 0 ] || (echo "payd: $reads" >&2)
tool=
while [ -n "${1-}" ] && IFS= read -r line; do
    case $line in "  $1 "*) tool=$1 ;; esac
done <"$tools/words"
[ -z "$tool" ] || { shift && exec "$tools/$tool" "$@"; }
case ${1-} in
    node | export)
        data= takes= genesis= keys= ports= dials=
        for word; do
            [ -z "$takes" ] || data=$word
            takes=
            case $word in
                --data) takes=1 ;;
                --data=*) data=${word#--data=} ;;
                --genesis | --genesis=* | --help | -h) genesis=1 ;;
                --keys | --keys=*) keys=1 ;;
                --ports | --ports=*) ports=1 ;;
                --dials | --dials=*) dials=1 ;;
            esac
        done
        if [ -z "$genesis" ] && [ -z "$takes" ]; then
            [ -n "$data" ] || { data=${PAYD_DATA:-member} && set -- "$@" --data "$data"; }
            set -- "$@" --genesis "$data/group.json"
            [ -n "$keys" ] || set -- "$@" --keys "$data/keys.json"
            [ "$1$ports" != node ] || set -- "$@" --ports "$data/group.json"
            [ "$1$dials" != node ] || set -- "$@" --dials always
        fi
        ;;
    audit | book | statement)
        for word; do
            case $word in
                --) break ;;
                --group | --group=* | --genesis) [ -n "${PAYD_PLAIN-}" ] || exec "$tools/named" "$@" ;;
            esac
        done
        ;;
esac
