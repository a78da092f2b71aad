# shellcheck shell=bash
# For packaging/tests/service.sh: runs Debian's systemd as the first process of a folder with a Debian: boot.sh ROOT. Whoever calls it
# has made namespaces of processes, mounts, names, groups and networks for it.
set -euo pipefail
root=$1
mount --bind "$root" "$root"
mount -t proc proc "$root/proc"
# (so that nothing is set that is this machine's)
mount --bind "$root/proc/sys" "$root/proc/sys"
mount -o remount,bind,ro "$root/proc/sys"
mount -t sysfs -o ro sysfs "$root/sys"
mount -t tmpfs -o mode=755 tmpfs "$root/run"
mount -t cgroup2 cgroup2 "$root/sys/fs/cgroup"
mkdir "$root/run/before"
cd "$root"
pivot_root . run/before
umount --lazy /run/before
exec env -i container=other PATH=/usr/sbin:/usr/bin:/sbin:/bin /lib/systemd/systemd --unit=basic.target
