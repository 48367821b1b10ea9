#!/usr/bin/env bash
# Judges the packages by lintian, and installs, uses and removes them in a root of their own, which debootstrap makes, or
# which is copied from the folder that ROOT names. Where `make dist` left a tarball, what the README gives to each of its
# readers is done from it in that root first. It runs as root. The last line is 'N passed, M failed'.
#     tests/deb.sh FOLDER      the folder that has the packages
set -u
[ $# = 1 ] || { echo 'usage: tests/deb.sh FOLDER' >&2; exit 2; }
folder=$(realpath "$1")
cd "$(dirname "$0")/.."
source tests/holds.sh
root=$room/root

packages=(libpciguest0 libpciguest-dev python3-pciguest pciguest)
files() { local one; for one in "${packages[@]}"; do ls "$folder/${one}"_*_amd64.deb; done; }

if command -v lintian > /dev/null; then
  holds 'lintian' lintian --allow-root --fail-on error,warning $(files)
else
  echo 'no lintian: the packages are not judged. On Debian: apt-get install lintian'
fi

if [ -n "${ROOT-}" ]; then cp -a "$ROOT" "$root"
else holds 'a root' debootstrap --variant=minbase --include=python3,gcc,libc6-dev,make,pkg-config bookworm "$root"; fi
inside() { chroot "$root" env -i PATH=/usr/bin:/bin:/usr/sbin:/sbin HOME=/root "$@"; }
# on a machine with neither the kit nor this repository
if tarball=$(ls pciguest-*-x86_64-linux.tar.gz 2> /dev/null); then
  mkdir -p "$root/tried/tests/library" && tar -C "$root/tried" -xzf "$tarball"
  cp tests/{users,commands,holds}.sh "$root/tried/tests/" && cp tests/library/device.stdout "$root/tried/tests/library/"
  # with /proc, which bash takes for what it compares; it is mounted for this command alone
  with_proc() { unshare -m sh -c 'mount -t proc proc "$0/proc"; ln -sfn /proc/self/fd "$0/dev/fd"; exec chroot "$0" "$@"' "$root" "$@"; }
  holds 'the tarball, by its README' with_proc env -i PATH=/usr/bin:/bin HOME=/root sh -c '/tried/tests/users.sh /tried/pciguest-*'
  echo "the tarball: $(tail -n 2 "$room/told")"
fi
mkdir -p "$root/packages" && cp $(files) "$root/packages/"
cp tests/library/device.stdout boards/demo.script "$root/packages/"
holds 'they are installed' inside sh -c 'dpkg -i /packages/*.deb'
holds 'none is broken' inside sh -c 'test -z "$(dpkg --audit)"'

"$top/pciguest" list boards/main.toml > "$room/report"
doc=/usr/share/doc/pciguest
examples=$doc/examples boards=$doc/boards
holds 'the program' same "$room/report" inside pciguest list $boards/main.toml
holds 'C' inside sh -c "cc -o /tmp/device $examples/c/device.c \$(pkg-config --cflags --libs pciguest)"
holds 'over the shared library' same tests/library/device.stdout inside /tmp/device $examples/device.toml
holds 'Python' same tests/library/device.stdout inside python3 $examples/python/device.py $examples/device.toml
holds 'its prompt' inside sh -c "echo a.vendor | python3 -m pciguest $boards/main.toml | grep -qx 'a: 0x1234'"
firmware=$examples/firmware
holds 'firmware' inside cc -o /tmp/enumerator $firmware/enumerator.c
holds 'a test of firmware' same <(echo '42 boards: 38 ready; the firmware reports no room on 4') \
  inside pciguest-firmware-test --boards 10 -- /tmp/enumerator
holds 'firmware with a mistake' inside sh -c "
  cd /tmp && python3 $firmware/edited.py $firmware/mistakes/multifunction_bit.edit > mistake.c && cc -o mistake mistake.c
  pciguest-firmware-test -- ./mistake > told; [ \$? = 1 ] && cat told && grep -qF 'on this board (2 functions)' told"
holds 'a transcript' inside sh -c "
  cd /tmp && cp $boards/main.toml . && echo a cr 0 0 4 | python3 -m pciguest.transcript record run main.toml > one.rows
  python3 -m pciguest.transcript replay one.rows | grep -qx '1 transcripts: 1 agree, 0 differ'
  sed -i 's/-> a: 0x00011234/-> a: 0x00011235/' one.rows
  python3 -m pciguest.transcript replay one.rows | grep -q 'PROFILE.md, section'"
holds 'the manual' inside sh -c 'zcat /usr/share/man/man1/pciguest.1.gz | head -n 1'
holds 'the manual of the test' inside sh -c 'zcat /usr/share/man/man1/pciguest-firmware-test.1.gz | head -n 1'
holds 'completion' inside test -e /usr/share/bash-completion/completions/pciguest -a -e /usr/share/zsh/vendor-completions/_pciguest

holds 'they are removed' inside dpkg --purge pciguest python3-pciguest libpciguest-dev libpciguest0
left() { test -z "$(find "$root/usr" "$root/etc" "$root/var/lib/dpkg/info" -name '*pciguest*' | tee /dev/stderr)"; }
holds 'nothing of them is left' left

counted
