#!/bin/sh
# Debian's kernels for the test machines, and what modules for them are built with. tests/for/debian.sh DIR
# downloads the packages behind linux-image-cloud-ARCH and linux-headers-cloud-ARCH, for amd64 and arm64,
# of this Debian (stable) and of its backports, and unpacks them below DIR; nothing is installed.
# DIR/KERNEL/ARCH/vmlinuz and DIR/KERNEL/ARCH/headers are what the tests use, KERNEL being stable or
# backports.
set -eu
mkdir -p "$1"
dir=$(cd "$1" && pwd)
. /etc/os-release

# apt_of COMMAND KERNEL ARCH ARGUMENT...: with lists of its own.
apt_of() {
    command=$1 state=$dir/apt/$2-$3 machine=$3 sources=''
    [ "$2" != backports ] || sources="-o Dir::Etc::SourceList=$dir/apt/backports.list -o Dir::Etc::SourceParts=/dev/null"
    shift 3
    mkdir -p "$state/lists/partial" "$state/cache/archives/partial"
    "$command" -q $sources -o APT::Architecture="$machine" -o APT::Architectures="$machine" \
        -o Dir::State::Lists="$state/lists" -o Dir::Cache="$state/cache" "$@"
}
# needed_by KERNEL ARCH PACKAGE PATTERN: the first package of that name that it depends on.
needed_by() {
    apt_of apt-cache "$1" "$2" depends "$3" | sed -n "s/^ *Depends: \($4\)\$/\1/p" | head -n 1
}
# unpack KERNEL ARCH PACKAGE ROOT
unpack() {
    (cd "$dir/apt" && rm -f ./*.deb && apt_of apt-get "$1" "$2" download "$3" && dpkg -x ./*.deb "$4")
}

mkdir -p "$dir/apt"
mirror=$(apt-get indextargets --format '$(REPO_URI)' "Codename: $VERSION_CODENAME" 'Component: main' | head -n 1)
echo "deb $mirror $VERSION_CODENAME-backports main" > "$dir/apt/backports.list"
for kernel in stable backports; do
    for arch in amd64 arm64; do
        apt_of apt-get "$kernel" "$arch" update
        image=$(needed_by "$kernel" "$arch" "linux-image-cloud-$arch" '.*')
        headers=$(needed_by "$kernel" "$arch" "linux-headers-cloud-$arch" '.*')
        of=$dir/$kernel/$arch
        rm -rf "$of"
        mkdir -p "$of/root"
        for package in "$image" "$headers" "$(needed_by "$kernel" "$arch" "$headers" '.*-common')"; do
            unpack "$kernel" "$arch" "$package" "$of/root"
        done
        # The programs that kbuild runs are of this machine, whatever they build for.
        unpack "$kernel" amd64 "$(needed_by "$kernel" "$arch" "$headers" 'linux-kbuild-.*')" "$of/root"
        rm -rf "$of/root/lib/modules" "$of/root/usr/lib/modules" "$of/root/usr/share"
        ln -s "root/usr/src/$headers" "$of/headers"
        ln -s "root/boot/vmlinuz-${image#linux-image-}" "$of/vmlinuz"
        # With it kbuild makes the kernel's own debugging format, by a program more.
        rm -f "$of/headers/vmlinux"
        sed -i "s|^include /|include $of/root/|" "$of/headers/Makefile"
        [ -e "$of/vmlinuz" ]
    done
done
rm -rf "$dir/apt"
