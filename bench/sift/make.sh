#!/bin/sh
# Makes the set of SIFT descriptors in a folder outside the repository: base.u8bin (100,000 vectors) and query.u8bin (1,000).
#     make.sh FOLDER
# The photographs come from Debian packages: each is fetched by apt-get download and unpacked, not installed. It takes one or
# two minutes, and 600 MB while it works; the same versions of the packages give the same bytes. It needs python3-opencv and
# python3-numpy.
set -eu
here=$(cd "$(dirname "$0")" && pwd)
mkdir -p "$1/packages" "$1/images"
to=$(cd "$1" && pwd)
packages="gnome-backgrounds mate-backgrounds plasma-workspace-wallpapers lomiri-wallpapers-16.04
lomiri-wallpapers-20.04 ukui-wallpapers python3-skimage python-skimage-doc"
cd "$to/packages"
for name in $packages; do
    ls "$name"_*.deb >/dev/null 2>&1 || apt-get download "$name" 2>/dev/null
    mkdir -p "$to/images/$name"
    dpkg-deb -x "$name"_*.deb "$to/images/$name"
done
cd "$to"
/usr/bin/python3 "$here/descriptors.py" images .
rm -rf packages images
