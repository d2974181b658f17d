#!/bin/bash
# Boots a systemd as process 1 of namespaces of its own, over this machine's files as they are, with what is written kept in memory; installs
# this there, has the relay's service run, and writes into FOLDER/seen what that can do. Needs root, and control groups of version 1.
# booted.sh FOLDER TOP
set -e
folder=$1 top=$2 phase=${3:-begin} group=vialshoal-booted-$(basename "$folder")
groups=(systemd memory pids cpu cpuacct cpuset blkio devices freezer)

begin() {
    for one in "${groups[@]}"; do
        own=/sys/fs/cgroup/$one/$group
        mkdir "$own"
        [ "$one" != cpuset ] || for each in cpus mems; do cat "/sys/fs/cgroup/cpuset/cpuset.$each" > "$own/cpuset.$each"; done
    done
    status=0
    (
        for one in "${groups[@]}"; do echo $BASHPID > "/sys/fs/cgroup/$one/$group/cgroup.procs"; done
        exec setpriv --pdeathsig KILL unshare --pid --fork --kill-child --mount --uts --ipc --cgroup --propagation private "$0" "$folder" "$top" inside
    ) || status=$?
    for one in "${groups[@]}"; do find "/sys/fs/cgroup/$one/$group" -depth -type d -exec rmdir {} \; || true; done
    exit $status
}

inside() {
    mount -t tmpfs -o size=1500m tmpfs "$folder/over"
    root=$folder/over/root
    mkdir "$folder/over/up" "$folder/over/work" "$root"
    mount -t overlay overlay -o "lowerdir=/,upperdir=$folder/over/up,workdir=$folder/over/work" "$root"
    mount -t proc proc "$root/proc"
    mount --bind -o ro "$root/proc/sys" "$root/proc/sys"
    mount -t sysfs -o ro sysfs "$root/sys"
    mount -t tmpfs tmpfs "$root/sys/fs/cgroup"
    for one in "${groups[@]}"; do
        mkdir "$root/sys/fs/cgroup/$one"
        mount -t cgroup -o "$([ "$one" = systemd ] && echo none,name=systemd || echo "$one")" cgroup "$root/sys/fs/cgroup/$one"
    done
    mount -t tmpfs -o mode=755 tmpfs "$root/dev"
    for one in null zero full random urandom tty; do touch "$root/dev/$one" && mount --bind "/dev/$one" "$root/dev/$one"; done
    mkdir "$root/dev/pts" "$root/dev/shm" "$root/seen" "$root/top"
    mount -t devpts devpts "$root/dev/pts"
    ln -s pts/ptmx "$root/dev/ptmx"
    ln -s /proc/self/fd "$root/dev/fd"
    touch "$root/dev/console" "$folder/console"
    mount --bind "$folder/console" "$root/dev/console"
    mount -t tmpfs tmpfs "$root/run"
    mount -t tmpfs tmpfs "$root/tmp"
    mount --bind "$folder/seen" "$root/seen"
    mount --bind "$top" "$root/top"
    cd "$root"
    mkdir before
    pivot_root . before
    umount -l before
    VIALSHOAL_BUILD=rust /top/bin/note install --prefix /usr/local
    mkdir -p /etc/default
    echo "RELAY_OPTIONS=--url https://notes.example.org --forwarded --listen 127.0.0.1:$PORT" > /etc/default/vialshoal-relay
    for one in udevd udev-trigger sysctl modules-load hwdb-update logind timesyncd remount-fs journal-flush; do
        ln -sf /dev/null "/etc/systemd/system/systemd-$one.service"
    done
    printf '[Unit]\nWants=vialshoal-relay.service look.service\n' > /etc/systemd/system/try.target
    printf '[Unit]\nAfter=vialshoal-relay.service\n[Service]\nType=oneshot\nExecStart=/bin/bash /top/share/tests/booted.sh / / look\n%s\n' \
        "Environment=PORT=$PORT" > /etc/systemd/system/look.service
    export container=lxc
    exec /usr/lib/systemd/systemd --system --unit=try.target --log-target=console
}

reached() {
    for _ in $(seq 300); do
        /usr/bin/python3 -c "import sys, urllib.request; urllib.request.urlopen('http://127.0.0.1:$PORT/relay')" 2>/dev/null && return
        sleep 1
    done
    return 1
}

look() {
    unit=vialshoal-relay
    {
        echo "first=$(cat /proc/1/comm)"
        reached && echo reached=yes
        process=$(systemctl show -p MainPID --value $unit)
        grep -E '^(Uid|CapEff|CapBnd|NoNewPrivs|Seccomp):' "/proc/$process/status" | tr '\t' ' ' | sed 's/: */=/'
        systemctl show $unit -p MemoryMax -p DynamicUser -p ActiveState
        user=$(stat -c %u "/proc/$process")
        for place in /usr /usr/local /etc /home /root /var/lib /var/lib/private/$unit /proc/sys/kernel; do
            nsenter -t "$process" -m -- setpriv --reuid "$user" --regid "$user" --clear-groups \
                sh -c "ls $place > /dev/null 2>&1 && printf reads; touch $place/tried 2>/dev/null && { printf writes; rm $place/tried; }; true" \
                | sed "s|^|$place=|"
            echo
        done
        echo "kept=$(stat -c '%a' /var/lib/private/$unit)"
        systemctl kill -s KILL $unit
        while [ "$(systemctl show -p NRestarts --value $unit)" = 0 ]; do sleep 0.1; done
        reached && echo again=yes
        systemctl stop $unit
        echo "ended=$(systemctl show -p Result --value $unit)"
    } > /seen/found 2> /seen/trouble || true
    systemctl exit 0
}

$phase
