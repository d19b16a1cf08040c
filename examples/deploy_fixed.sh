#!/bin/sh
# Copies the files of a list to a host.
usage() {
    cat <<END
usage: deploy.sh [-n] [-d DIRECTORY] HOST LIST
  -n            only says what would be done
  -d DIRECTORY  where the files go, and not to $directory
END
}

copy() {
    if [ "$dry" = yes ]; then
        echo "$host: would copy $1 to $directory"
    else
        scp -- "$1" "$host:$directory/"
    fi
}

dry=no
directory=/srv/app
while getopts nd: option; do
    case $option in
        n) dry=yes ;;
        d) directory=${OPTARG:?} ;;
        *) usage >&2; exit 3 ;;
    esac
done
shift $((OPTIND - 1))
host=${1:?no host}
while read -r file; do
    copy "$file"
done <"${2:?no list}"
