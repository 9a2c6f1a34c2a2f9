#!/usr/bin/env bash
# own-systemd.sh SCRIPT FOLDER: runs `tests/SCRIPT inside` as root, under a systemd of its own, on this machine's files.
# All that it writes lies over them in memory, and is gone when it ends, but for FOLDER, which it sees as /given. It has
# a network of its own, without a way out, and so all ports. It stands in /root/oauthd, with docs, examples, deploy, tests
# and the built program. It is ended after 900 seconds. Needs root, and Linux with overlay file systems and control groups.
# Ends with the script's status. Tried with version 252 of systemd on control groups of version 1.
script=$1 given=$(realpath "$2")
. "$(dirname "$0")/lib.sh"
[ "$(id -u)" = 0 ] || { echo "this wants to be root"; exit 2; }
for name in /lib/systemd/systemd /usr/bin/unshare /usr/sbin/nginx /usr/bin/curl /usr/bin/openssl /usr/bin/python3; do
    [ -x "$name" ] || { echo "there is no $name: apt-get install systemd util-linux nginx curl openssl python3"; exit 2; }
done
room=$(mktemp -d /tmp/own-systemd.XXXXXX) || exit 2
groups=/sys/fs/cgroup
[ -e $groups/cgroup.controllers ] || groups=/sys/fs/cgroup/systemd
own=$groups/${room##*/}
leave() {
    kill %1 2>/dev/null
    wait
    for _ in $(seq 50); do      # its processes may take a moment to end
        find "$own" -depth -type d -exec rmdir {} \; 2>/dev/null
        [ -d "$own" ] || break
        sleep 0.2
    done
    rmdir "$room"
}
trap leave EXIT
mkdir "$own" || exit 2

inside() {
    mount --make-rprivate /
    mount -t tmpfs tmpfs "$room"
    mkdir "$room/over" "$room/work" "$room/root"
    mount -t overlay overlay -o "lowerdir=/,upperdir=$room/over,workdir=$room/work" "$room/root"
    cd "$room/root"
    mount -t tmpfs tmpfs root
    rm -rf etc/systemd/system/*.wants etc/systemd/system/oauthd* etc/oauthd* etc/nginx/conf.d/oauthd* usr/local/lib/oauthd var/lib/oauthd*
    mkdir -p root/oauthd/crates/oauthd/out given old
    cp -r "$repository"/{docs,examples,deploy,tests} root/oauthd
    cp "$program" root/oauthd/crates/oauthd/out/oauthd
    mount -t proc proc proc
    mount -t sysfs -o ro sysfs sys
    if [ "$groups" = /sys/fs/cgroup ]; then
        mount -t cgroup2 cgroup sys/fs/cgroup
    else
        mount -t tmpfs tmpfs sys/fs/cgroup
        mkdir sys/fs/cgroup/systemd
        mount -t cgroup -o none,name=systemd cgroup sys/fs/cgroup/systemd
    fi
    for name in dev run tmp; do mount -t tmpfs tmpfs "$name"; done
    cp -a /dev/{null,zero,full,random,urandom,tty} dev
    cp -a /dev/null dev/console
    mkdir dev/pts dev/mqueue dev/hugepages
    mkdir -m 1777 dev/shm
    mount -t devpts -o newinstance,ptmxmode=0666 devpts dev/pts
    ln -s pts/ptmx dev/ptmx
    ln -s /proc/self/fd dev/fd
    mount --bind "$given" given
    printf '[Unit]\nRequires=script.service\nAfter=script.service\n' >etc/systemd/system/script.target
    cat >etc/systemd/system/script.service <<UNIT
[Unit]
DefaultDependencies=no
Requires=systemd-journald.service
After=systemd-journald.service
[Service]
Type=oneshot
Environment=HOME=/root
WorkingDirectory=/root/oauthd
ExecStart=/bin/bash tests/$script inside
ExecStopPost=/bin/sh -c 'echo \$EXIT_STATUS >/given/.status; systemctl --force --force poweroff'
StandardOutput=file:/given/.out
StandardError=inherit
UNIT
    hostname machine
    pivot_root . old
    umount -l /old
    exec env -i container=unshare PATH=/usr/sbin:/usr/bin:/sbin:/bin /lib/systemd/systemd --unit=script.target \
        --log-target=journal --show-status=no </dev/null
}
export -f inside
export room given script program groups repository=$root

: >"$given/.out"
echo 2 >"$given/.status"
(
    echo "$BASHPID" >"$own/cgroup.procs"
    exec timeout -k 2 900 unshare --mount --pid --net --uts --ipc --cgroup --fork --kill-child bash -ec inside
) >"$given/.boot" 2>&1 &
trap 'exit 2' INT TERM
tail -n +1 --pid=$! -s 0.3 -f "$given/.out"
wait $!
status=$(cat "$given/.status")
[ "$status" = 0 ] || [ -s "$given/.out" ] || cat "$given/.boot"
rm -f "$given/.out" "$given/.status" "$given/.boot"
exit "$status"
