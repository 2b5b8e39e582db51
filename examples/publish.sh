#!/bin/sh
# Publishes a site that keeps its gophermaps, such as a phlog: what a gophermap lists by `*` is listed anew each time.
#
#     sh publish.sh SOURCE SITE SETTINGS [COMMAND ..]
#
# SOURCE is the folder that you write in. The script copies it, without what not everybody may read, converts the copy by
# gophermap_to_menu, and makes SITE, the root of SETTINGS, a link to it. If `hole check` finds the copy sound, COMMAND runs, for
# example `systemctl try-restart hole`; otherwise SITE stays as it was. Run it after each change, as a user who may write beside
# SITE. If gophermaps name the server's own host, give its name and port by SITE_HOST and SITE_PORT in the environment.
# OPERATING.md, section 9, has an example.

set -eu
umask 022

if [ $# -lt 3 ]; then
    echo 'usage: publish.sh SOURCE SITE SETTINGS [COMMAND ..]' >&2
    exit 2
fi
source=$1 site=${2%/} settings=$3
shift 3
if [ -e "$site" ] && [ ! -L "$site" ]; then
    echo "publish: $site must be a link, or not exist yet" >&2
    exit 1
fi
old=$(readlink "$site") || old=
beside=$(dirname "$site")
new=$(mktemp -d "$site.XXXXXX")

# Makes SITE a link to a copy beside it, in one step.
lead_to() {
    ln -s "$1" "$new.link"
    mv -T "$new.link" "$site"
}

undo() {
    if [ "$(readlink "$site")" = "${new##*/}" ]; then
        if [ -n "$old" ]; then lead_to "$old"; else rm "$site"; fi
    fi
    rm -rf "$new" "$new.link" "$new.list"
}
trap undo EXIT
trap 'exit 1' HUP INT TERM

cp -RL "$source/." "$new"
chmod 755 "$new"
find "$new" -depth ! -perm -004 -exec rm -rf {} +
# Status 3: some files were left as they are; standard error names them.
gophermap_to_menu --site "$new" --host "${SITE_HOST-}" --port "${SITE_PORT-70}" > "$new.list" || [ $? = 3 ]
while IFS= read -r file; do
    rm "$file"
done < "$new.list"
rm "$new.list"

lead_to "${new##*/}"
hole check "$settings" >&2
trap - EXIT HUP INT TERM
if [ $# -gt 0 ]; then
    "$@"
fi
case $old in
"${site##*/}".*) rm -rf "${beside:?}/$old" ;;
esac
