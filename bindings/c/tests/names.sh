#!/bin/sh
# What a power cut leaves of a heap's name. On ext4 a rename is durable only once its folder is synced, or some seconds later; the syncs of a file
# that was renamed don't make it so. Whoever renamed a heap to its path may have been killed before it synced the folder, so an opening does.
#
#     names.sh PROGRAM      `PROGRAM PATH COUNT` opens or makes the heap, adds COUNT sections that are acknowledged, and prints what it has
#
# A making is killed at each of its calls, its folder's sync fails once, a new heap is renamed over an old one, and a heap lies in an overlay's lower
# folder. Each time the heap is opened, 20 sections are acknowledged, and the power is cut: a copy of the disk has what the kernel has given
# to it by then. The heap of that copy must have them.
# Needs root, a loop device, strace and mkfs.ext4; without them it says so.
set -eu
program=$(realpath "$1")
if [ -z "${HAS_NAMESPACE:-}" ]; then
    lacks() { echo "LEFT OUT: no $1: what a power cut leaves of a heap's name wasn't tried"; exit 77; }
    [ "$(id -u)" -eq 0 ] || lacks root
    for tool in strace mkfs.ext4 losetup unshare; do command -v "$tool" >/dev/null || lacks "$tool"; done
    strace -o /dev/null true 2>/dev/null || lacks "strace of other processes"
    losetup --find >/dev/null 2>&1 && unshare --mount true 2>/dev/null || lacks "loop device that can be mounted"
    # What is mounted goes with the namespace.
    HAS_NAMESPACE=1 exec unshare --mount "$0" "$program"
fi
work=$(mktemp -d)
trap 'umount "$work/cut" "$work/overlay" "$work/disk" 2>/dev/null || true; rm -rf "$work"' EXIT
cd "$work"
mkdir disk cut overlay
truncate -s 24M image
mkfs.ext4 -q -F image
# With this interval nothing but a sync makes a name durable.
mount -o loop,commit=900 image disk 2>errors || {
    echo "LEFT OUT: $(cat errors): what a power cut leaves of a heap's name wasn't tried"
    exit 77
}
tried=0

# begin: the disk has no heap
begin() {
    rm -rf disk/*
    sync -f disk
}

# killed CALL NUMBER: whether a making was killed at that call of its
killed() {
    status=0
    strace -f -o /dev/null -e "inject=$1:signal=KILL:when=$2" "$program" disk/heap 0 >/dev/null 2>&1 || status=$?
    [ "$status" -eq 137 ]
}

# cut_after WHAT PATH FOUND [COMMAND..]: 20 sections are acknowledged, by a program that COMMAND runs; then the power is cut
cut_after() {
    what=$1 path=$2 found=$3
    shift 3
    told=$("$@" "$program" "$path" 20 2>errors | tail -1)
    cp image image.cut
    mount -o loop image.cut cut
    has=$("$program" "cut/$found" 0 2>errors | tail -1)
    umount cut
    if [ -z "$told" ] || [ "$told" != "$has" ]; then
        echo "$what: ${told:-nothing} was acknowledged, and the heap has ${has:-none} after a power cut: $(cat errors)"
        exit 1
    fi
    tried=$((tried + 1))
}

for call in pwrite64 fdatasync rename fsync; do
    for number in 1 2 3 4 5 6 7 8 9 10 11 12 13 14 15 16; do
        begin
        killed "$call" "$number" || break
        cut_after "a making killed at $call $number" disk/heap heap
    done
done
if [ "$tried" -lt 8 ]; then echo "only $tried makings were killed"; exit 1; fi
begin
: >disk/heap
sync -f disk
cut_after "a folder's sync that has failed" disk/heap heap strace -f -o /dev/null -P "$work/disk" -e inject=fsync:error=EIO:when=1
begin
"$program" disk/heap 0 >/dev/null
"$program" disk/new 5 >/dev/null
sync -f disk
mv disk/new disk/heap
cut_after "a new heap over the old one" disk/heap heap
begin
mkdir disk/lower disk/upper disk/work
"$program" disk/lower/heap 5 >/dev/null
sync -f disk
if mount -t overlay overlay -o lowerdir=disk/lower,upperdir=disk/upper,workdir=disk/work overlay 2>errors; then
    cut_after "a heap in an overlay's lower folder" overlay/heap upper/heap
    umount overlay
else
    echo "LEFT OUT: no overlay: a heap in a lower folder wasn't tried"
fi
echo "names: $tried power cuts after a making that was killed at each call, a folder's failed sync, a rename and an overlay"
