# What try-package.sh and try-debian.sh share.
#
# make_root PACKAGE INCLUDED makes a fresh Debian in $folder/root from apt's own sources, with the packages INCLUDED (their names, with
# commas), or as a copy of the folder FRESH_ROOT where that is set. It has the file PACKAGE as /trial/registry.deb, the same with a higher
# version as /trial/higher.deb, and with a still higher one and another number of rules as /trial/other.deb.
make_root() {
    local sources higher=$folder/higher trial=$folder/root/trial
    if [ -n "${FRESH_ROOT:-}" ]; then
        cp -a "$FRESH_ROOT" "$folder/root"
    else
        mapfile -t sources < <(apt-get indextargets --format '$(SOURCESENTRY)' 'Created-By: Packages' 'Origin: Debian' | sed 's/:[0-9]*$//' | sort -u)
        mmdebstrap --quiet --variant=minbase --include="$2" "$(. /etc/os-release && echo "$VERSION_CODENAME")" "$folder/root" "${sources[@]}"
    fi
    mkdir "$trial"
    cp "$1" "$trial/registry.deb"
    dpkg-deb --raw-extract "$1" "$higher"
    sed -i 's/^Version: .*/&+higher/' "$higher/DEBIAN/control"
    dpkg-deb --root-owner-group -Znone --build "$higher" "$trial/higher.deb" >/dev/null
    sed -i 's/^Version: .*/&+other/' "$higher/DEBIAN/control"
    sed -i 's/"$rules" != "[0-9]*"/"$rules" != "other"/' "$higher/DEBIAN/preinst"
    dpkg-deb --root-owner-group -Znone --build "$higher" "$trial/other.deb" >/dev/null
}
