#!/bin/sh
# Installs the program, its page and its completions from a copy of this tree into temporary folders, looks at what is
# there then, and uninstalls them again. It also looks whether page, completions and program have the same commands and
# options, and whether the page has the faults and statuses of docs/FORMATS.md. A line is printed for each case; the status
# is 1 where one differs.
#
# Usage: install_test.sh [PROGRAM], by default out/pciplan beside this file, which `rt ci` and `rt run` make.
set -u
umask 022
LC_ALL=C
export LC_ALL
unset DESTDIR

here=$(CDPATH='' cd -- "$(dirname -- "$0")" && pwd) || exit 1
top=$here/../..
room=$(mktemp -d) || exit 1
trap 'chmod -R u+w "$room"; rm -rf "$room"' EXIT
mkdir -p "$room/tree/crates/pciplan/out" "$room/home" || exit 1
cp -- "${1:-$here/out/pciplan}" "$room/tree/crates/pciplan/out/pciplan" || exit 1
cp -R -- "$top/install.sh" "$top/docs" "$room/tree" || exit 1
cp -- "$here"/data/*.txt "$room" || exit 1
cd "$room" || exit 1

page=tree/docs/pciplan.1
names=tree/docs/completions
passed=0 failed=0

# same NAME: compares the files wanted and got.
same() {
    if cmp -s wanted got; then
        echo "ok: $1"
        passed=$((passed + 1))
    else
        echo "DIFFERS: $1"
        diff wanted got
        failed=$((failed + 1))
    fi
}

# has NAME TEXT: the same, where a text is wanted that is no file.
has() {
    printf '%s\n' "$2" >wanted
    same "$1"
}

# quiet NAME COMMAND..: the command says nothing, and its status is 0; it is left out where there is no such program.
quiet() {
    title=$1
    shift
    if command -v "$1" >/dev/null; then
        "$@" >got 2>&1 </dev/null
        echo "status $?" >>got
        has "$title" 'status 0'
    else
        echo "skipped: $title"
    fi
}

# modes FOLDER: what stands in the folder, with its mode.
modes() {
    (cd "$1" && find . -exec ls -ld {} +) | awk '{ print substr($1, 1, 10), $NF }' | sort -k 2
}

# the five files, each with its place
files='crates/pciplan/out/pciplan bin/pciplan
docs/pciplan.1 share/man/man1/pciplan.1
docs/completions/pciplan.bash share/bash-completion/completions/pciplan
docs/completions/_pciplan share/zsh/site-functions/_pciplan
docs/completions/pciplan.fish share/fish/vendor_completions.d/pciplan.fish'

# installed NAME BELOW PREFIX: installs to the prefix, and compares what is said and what stands in BELOW then.
installed() {
    tree/install.sh "$3" >got 2>&1
    echo "status $?" >>got
    {
        echo "$files" | while read -r _ place; do
            echo "$2/$place"
        done
        echo 'status 0'
    } >wanted
    same "$1: what is said"
    echo "$files" | while read -r file place; do
        cmp "tree/$file" "$2/$place"
    done >got 2>&1
    : >wanted
    same "$1: files"
    modes "$2" >got
    cat >wanted <<'END'
drwxr-xr-x .
drwxr-xr-x ./bin
-rwxr-xr-x ./bin/pciplan
drwxr-xr-x ./share
drwxr-xr-x ./share/bash-completion
drwxr-xr-x ./share/bash-completion/completions
-rw-r--r-- ./share/bash-completion/completions/pciplan
drwxr-xr-x ./share/fish
drwxr-xr-x ./share/fish/vendor_completions.d
-rw-r--r-- ./share/fish/vendor_completions.d/pciplan.fish
drwxr-xr-x ./share/man
drwxr-xr-x ./share/man/man1
-rw-r--r-- ./share/man/man1/pciplan.1
drwxr-xr-x ./share/zsh
drwxr-xr-x ./share/zsh/site-functions
-rw-r--r-- ./share/zsh/site-functions/_pciplan
END
    same "$1: modes"
}

# removed NAME BELOW PREFIX [LEFT]: uninstalls from the prefix, and compares what is said, and which files stand in BELOW
# then: none but LEFT.
removed() {
    tree/install.sh --uninstall "$3" >got 2>&1
    echo "status $?" >>got
    {
        echo "$files" | while read -r _ place; do
            echo "$2/$place"
        done
        echo 'status 0'
    } >wanted
    same "$1: what is said"
    (cd "$2" && find . ! -type d) >got
    { [ $# -lt 4 ] || echo "$4"; } >wanted
    same "$1: what is left"
}

# refused NAME STATUS MESSAGE WORD..: what the last line of standard error and the status are.
refused() {
    title=$1 message="install.sh: $3
status $2"
    shift 3
    tree/install.sh "$@" >out 2>err
    status=$?
    { tail -n 1 err; echo "status $status"; } >got
    has "$title" "$message"
}

# gone NAME PATH: nothing is there.
gone() {
    ls -d "$2" >got 2>/dev/null
    : >wanted
    same "$1"
}

installed 'a new prefix' "$room/usr" "$room/usr"
installed 'the same prefix again' "$room/usr" "$room/usr"
umask 077
installed 'a umask that hides' "$room/a hidden one" "$room/a hidden one/"
umask 022
DESTDIR=$room/package
export DESTDIR
installed 'DESTDIR' "$room/package$room/elsewhere" "$room/elsewhere"
unset DESTDIR
gone 'DESTDIR: nothing elsewhere' elsewhere

removed 'uninstalled' "$room/a hidden one" "$room/a hidden one/"
modes 'a hidden one' >got
has 'uninstalled: folders stay' 'drwxr-xr-x .
drwxr-xr-x ./bin
drwxr-xr-x ./share
drwxr-xr-x ./share/bash-completion
drwxr-xr-x ./share/bash-completion/completions
drwxr-xr-x ./share/fish
drwxr-xr-x ./share/fish/vendor_completions.d
drwxr-xr-x ./share/man
drwxr-xr-x ./share/man/man1
drwxr-xr-x ./share/zsh
drwxr-xr-x ./share/zsh/site-functions'

usr/bin/pciplan check dump.txt probe.txt >got 2>&1
echo "status $?" >>got
has 'the installed program' 'yes
status 0'

mkdir -p old/bin
echo other >old/bin/other
echo older >old/bin/pciplan
chmod 600 old/bin/*
chmod 700 old old/bin
tree/install.sh "$room/old" >/dev/null 2>&1
modes old | grep -v share >got
cat old/bin/other >>got
cmp tree/crates/pciplan/out/pciplan old/bin/pciplan >>got 2>&1
has 'what was there before' 'drwx------ .
drwx------ ./bin
-rw------- ./bin/other
-rwxr-xr-x ./bin/pciplan
other'

removed 'uninstalled beside another file' "$room/old" "$room/old" ./bin/other

# what is refused
usage='usage: install.sh [--uninstall] [--library] PREFIX, which begins with a slash'
refused 'no prefix' 2 "$usage"
refused 'two prefixes' 2 "$usage" "$room/one" "$room/two"
refused 'an empty prefix' 2 "$usage" ''
refused 'a prefix without a slash' 2 "$usage" one
gone 'nothing is made of them' 'one'
refused 'uninstall: no prefix' 2 "$usage" --uninstall
refused 'uninstall: two prefixes' 2 "$usage" --uninstall "$room/usr" "$room/usr"
refused 'uninstall: a prefix without a slash' 2 "$usage" --uninstall usr
refused 'uninstall: a prefix first' 2 "$usage" "$room/usr" --uninstall
refused 'uninstall: nothing is there' 1 "nothing is installed below $room/old/" --uninstall "$room/old"
: >plain
refused 'a prefix below a file' 1 "can't make the folder $room/plain/one/bin" "$room/plain/one"
mkdir -p folders/bin/pciplan
refused 'a folder in the place of the program' 1 "$room/folders/bin/pciplan is a folder" "$room/folders"
modes folders >got
has 'nothing is made there' 'drwxr-xr-x .
drwxr-xr-x ./bin
drwxr-xr-x ./bin/pciplan'
tree/install.sh "$room/part" >/dev/null 2>&1
rm part/share/man/man1/pciplan.1
mkdir part/share/man/man1/pciplan.1
refused 'uninstall: a folder in the place of the page' 1 "$room/part/share/man/man1/pciplan.1 is a folder" \
    --uninstall "$room/part"
(cd part && find . ! -type d | sort) >got
has 'uninstall: nothing is removed there' './bin/pciplan
./share/bash-completion/completions/pciplan
./share/fish/vendor_completions.d/pciplan.fish
./share/zsh/site-functions/_pciplan'
rmdir part/share/man/man1/pciplan.1
ln -s nowhere part/share/man/man1/pciplan.1
rm part/bin/pciplan
tree/install.sh --uninstall "$room/part" >got 2>&1
(cd part && find . ! -type d) >>got
echo "$files" | sed "1d;s,^.* ,$room/part/," >wanted
same 'uninstall: a file that is missing, and a link'
mkdir half
: >half/share
refused 'a file in the place of a folder' 1 "can't make the folder $room/half/share/man/man1" "$room/half"
mkdir -p locked/bin
chmod 555 locked locked/bin
if [ -w locked ]; then
    echo 'skipped: a folder that may not be written, which root may'
else
    refused 'a folder that may not be written' 1 "can't write to the folder $room/locked/bin" "$room/locked"
    modes locked >got
    has 'nothing is left there' 'dr-xr-xr-x .
dr-xr-xr-x ./bin'
    tree/install.sh "$room/kept there" >/dev/null 2>&1
    chmod 555 'kept there/bin'
    refused 'uninstall: a folder that may not be written' 1 "can't remove $room/kept there/bin/pciplan" \
        --uninstall "$room/kept there"
fi
mv tree/docs/pciplan.1 kept
refused 'a page that is missing' 1 'docs/pciplan.1 is missing' "$room/new"
mv kept tree/docs/pciplan.1
mv tree/crates/pciplan/out kept
refused 'a program that is not built' 1 "crates/pciplan/out/pciplan isn't built: \
(cd crates/pciplan && rt all check --jobs 4 && rt run -- check data/dump.txt data/probe.txt)" "$room/new"
DESTDIR=$room/package
export DESTDIR
removed 'uninstalled from DESTDIR, and nothing is built' "$room/package$room/elsewhere" "$room/elsewhere"
unset DESTDIR
mv kept tree/crates/pciplan/out
gone 'nothing is made without one' new

# The commands, and the options of each with `=` where a word goes with it, one in a line: as the synopsis of the page
# has them, and as the completions do.
awk '
    /^\.SH/ { inside = $2 == "SYNOPSIS" }
    inside && /^\.SY/ { command = substr($3, 1, length($3) - 1); print command }
    inside && !/^\./ {
        gsub(/\\f.|[][]/, "")
        gsub(/\\-/, "-")
        for (at = 1; at <= NF; at++)
            if ($at ~ /^--/) {
                form = sub(/=FORM$/, "", $at)
                print command " " $at (!form && $(at + 1) ~ /^[A-Z]/ ? "=" : "")
            }
    }' "$page" | sort >synopsis
commands=$(grep -v ' ' synopsis)
options=$(sed -n 's/^.* \(--[a-z-]*\).*$/\1/p' synopsis | sort -u)
cp synopsis wanted

awk '
    /local commands=/ { split($0, parts, "\047"); count = split(parts[2], words, " "); while (count) print words[count--] }
    /\) options=\047/ {
        split($0, parts, "\047")
        count = split(parts[2], words, " ")
        gsub(/[|)]|options=.*/, "")
        for (at = 1; at <= NF; at++)
            for (option = 1; option <= count; option++)
                rows[$at " " words[option]] = words[option]
    }
    /^ *--[a-z-]+( \| --[a-z-]+)*\)$/ { gsub(/[|)]/, ""); for (at = 1; at <= NF; at++) valued[$at] }
    END { for (row in rows) print row (rows[row] in valued ? "=" : "") }' $names/pciplan.bash | sort >got
same 'bash has the commands and options of the page'

awk '
    /^ *\047[a-z]+:/ { split($0, parts, /[\047:]/); print parts[2] }
    /^ *\([a-z|]+\)$/ { gsub(/[ ()]/, ""); count = split($0, commands, "|") }
    /^ *\047(\(--[a-z]+\))?--/ {
        sub(/\(--[a-z]+\)/, "")
        split($0, parts, /[\047[]/)
        sub(/=-$/, "", parts[2])
        for (at = 1; at <= count; at++)
            print commands[at] " " parts[2]
    }' $names/_pciplan | sort >got
same 'zsh has the commands and options of the page'

awk '
    / -n __pciplan_wants_command / { print $(NF < 7 ? NF : 7) }
    / -n \047__pciplan_takes / {
        split($0, parts, "\047")
        count = split(parts[2], words, " ")
        split(parts[3], option, " ")
        for (at = 3; at <= count; at++)
            print words[at] " --" (words[2] == option[2] ? option[2] : "?") (option[3] ~ /^-[rx]$/ ? "=" : "")
    }' $names/pciplan.fish | sort >got
same 'fish has the commands and options of the page'

# pools_but OPTION: the words of the pools, without that of this option.
pools_but() {
    for pool in --io=1000-ffff --mem=e0000000-efffffff --pref=f0000000-ffffffff; do
        [ "${pool%%=*}" = "$1" ] || echo "$pool"
    done
}

# spare_for OPTION: what has to stand beside it.
spare_for() {
    [ "$1" != --slots ] || echo --spare mem:1
}

# taken COMMAND [WORD..]: whether the program takes these words, after what the command needs. `here` reads a folder
# without a machine.
taken() {
    command=$1
    shift
    # shellcheck disable=SC2046
    case $command in
    plan | settle) set -- bare.txt bare_probe.txt $(pools_but "${1-}") $(spare_for "${1-}") "$@" ;;
    here) [ "${1-}" = --from ] || set -- --from home "$@" ;;
    json) [ $# -gt 0 ] || set -- check bare.txt bare_probe.txt ;;
    explain | version) ;;
    *) set -- bare.txt bare_probe.txt "$@" ;;
    esac
    usr/bin/pciplan "$command" "$@" >out 2>err
    ! grep -q '^pciplan: usage$' err
}

# each command with each option of any command, with a word and without
for command in $commands; do
    taken "$command" && echo "$command"
    for option in $options; do
        case $option in
        --root) word=00 ;;
        --model) word=power ;;
        --fixed | --slots) word=00:02.0 ;;
        --spare) word=mem:1 ;;
        --domain) word=0000 ;;
        --from | --log) word=home ;;
        --pref) word=f0000000-ffffffff ;;
        *) word=1000-ffff ;;
        esac
        taken "$command" "$option" "$word" && echo "$command $option="
        taken "$command" "$option" && echo "$command $option"
    done
done | sort >got
same 'the program takes the commands and options of the page, and no other of them'

# the forms of the writes, which settle alone has
for command in $commands; do
    for form in setpci grub; do
        taken "$command" "--writes=$form" && echo "$command $form"
    done
done >got
has 'the forms of the writes' 'settle setpci
settle grub'

# The names that the program's definitions have, so that none is missing in the page.
words=$top/crates/pciplan_words/src/commands.rt
{
    sed -n 's/^ *Command::[A-Za-z]* => "\([a-z]*\)",$/\1/p' "$top/crates/pciplan_front/src/command.rt"
    sed -n 's/^pub const [A-Z_]*: &str = "\([a-z-]*\)";$/--\1/p' "$words"
} | sort -u >got
tr ' ' '\n' <synopsis | tr -d = | sort -u >wanted
same 'the page has the names of the definitions'
for word in --help -h help --version; do
    taken "$word" || echo "$word"
done >got
has 'words that ask for help' '--help
-h
help
--version'

# what the page says beside its synopsis
head -n 1 "$page" | sed 's/.*"pciplan \(.*\)" ".*/\1/' >got
has 'the version of the page' "$(sed -n '/^## /{s/## //p;q;}' "$top/CHANGELOG.md")"
# A fault is a number, its name and its fields; the table of sizes has the same faults as that of a dump.
# shellcheck disable=SC2016
sed -n 's/^| \([0-9]*\) | `\([^`]*\)`.*/\1 \2/p' "$top/docs/FORMATS.md" |
    sed -e 's/^\([0-9]*\) \1 /\1 /' -e 's/^8 TooMany [0-9]*$/8 TooMany n/' | sort -nu >wanted
sed -n 's/^\.B \([0-9][0-9]* [A-Z]\)/\1/p' "$page" >got
same 'the faults of the page'
sed -n '/^| status /,$s/^| \([0-9]\) | .*/\1/p' "$top/docs/FORMATS.md" | uniq >wanted
sed -n 's/^\.B \([0-9]\)$/\1/p' "$page" >got
same 'the statuses of the page'

# example N: the page's Nth example, as it is printed.
example() {
    awk -v wanted="$1" '
        /^\.EX/ { number++; inside = 1; next }
        /^\.EE/ { inside = 0 }
        inside && number == wanted { gsub(/\\-/, "-"); gsub(/\\\(aq/, "\047"); gsub(/\\\(ha/, "^"); gsub(/\\e/, "\\"); print }' "$page"
}

PATH=$room/usr/bin:$PATH
for number in 1 2 3; do
    example $number | sed -n '1,/[^\\]$/s/^\$ //p;1,/[^\\]$/s/^    //p' >command.sh
    example $number >wanted
    { example $number | sed '/[^\\]$/q'; sh command.sh; } >got 2>&1
    same "example $number of the page"
done

# A machine's functions as Linux shows them: each has its registers, bytes in octal for printf, and its lines of sizes.
awk '
    function octal(byte,    high, low) {
        high = index("0123456789abcdef", substr(byte, 1, 1)) - 1
        low = index("0123456789abcdef", substr(byte, 2, 1)) - 1
        return sprintf("\\%03o", high * 16 + low)
    }
    /^..:..\../ { slot = $1; bytes = "" }
    /^.0: / { for (at = 2; at <= NF; at++) bytes = bytes octal($at) }
    /^f0: / { print slot, bytes }' "$top/machines/old.dump" >functions
while read -r slot bytes; do
    mkdir -p "devices/0000:$slot"
    # shellcheck disable=SC2059
    printf "$bytes" >"devices/0000:$slot/config"
    {
        sed -n "/^$slot\$/,/^\$/s/^0x/0x/p" "$top/machines/old.sizes"
        echo '0x0000000000000001 0x0000000000000002 0x0000000000000200'
    } >"devices/0000:$slot/resource"
done <functions
mkdir devices/0001:00:00.0
rm dump.txt
example 4 | sed "s,/sys/bus/pci/devices,$room/devices," >command.sh
sh command.sh >got 2>&1
cmp dump.txt "$top/machines/old.dump" >>got 2>&1
cmp sizes.txt "$top/machines/old.sizes" >>got 2>&1
: >wanted
same 'example 4 of the page'
example 5 >command.sh
sh command.sh >got 2>&1
has 'example 5 of the page' 'pciplan: assumed 00:02.0 30
yes'
quiet 'the page: mandoc' mandoc -Tlint "$page"
quiet 'the page: groff' groff -man -ww -z -Tutf8 "$page"

# offers WORDS OFFERED: what bash offers for the last of the words, which are as a line of the shell has them. FILES
# stands for names of files, which readline completes where it is told so.
offers() {
    # shellcheck disable=SC2016
    bash --norc -c '
        . "$0"
        compopt() { [ "$*" = "-o default" ] && COMPREPLY+=(FILES); }
        eval "COMP_WORDS=(pciplan $1)"
        COMP_CWORD=$((${#COMP_WORDS[@]} - 1))
        _pciplan
        echo ${COMPREPLY[*]-}
    ' usr/share/bash-completion/completions/pciplan "$1" >got 2>&1
    has "bash offers after '$1'" "$2"
}

quiet 'bash takes its completion' bash -n $names/pciplan.bash
if command -v bash >/dev/null; then
    offers "''" 'here show check faults map size plan settle probe json picture explain version'
    for command in show check faults map size plan settle probe picture; do
        offers "$command ''" FILES
        offers "$command dump.txt probe.txt ''" \
            "$(sed -n "s/^$command \(--[a-z-]*\).*/\1/p" synopsis | tr '\n' ' ' | sed 's/ $//')"
    done
    offers 's' 'show size settle'
    offers 'check --r' '--root'
    offers 'check --e' ''
    offers "check --root ''" ''
    offers 'check --root =' ''
    offers 'check --root = 0' ''
    offers "check --root = 00 dump.txt ''" FILES
    offers 'check --root 00 -' ''
    offers "check --root 00 dump.txt probe.txt ''" ''
    offers 'check -- dump.txt -' FILES
    offers "check -- dump.txt probe.txt ''" ''
    offers "show check probe ''" ''
    offers 'plan --io 0-1 dump.txt --writes --' '--mem --pref --root --why'
    offers 'settle --writes =' ''
    offers "settle --writes = ''" 'grub setpci'
    offers 'settle dump.txt --writes = s' 'setpci'
    offers "settle --writes = grub ''" FILES
    offers "plan --writes = ''" ''
    offers 'probe dump.txt --exact s' FILES
    offers "faults --model ''" 'cardbus ide isa power reset snoop subtractive unclaimed unnumbered vga vga16 windows all'
    offers 'faults --model =' ''
    offers "map --model = p" 'power'
    offers 'settle --model vga,s' 'vga,snoop vga,subtractive'
    offers 'faults dump.txt probe.txt --model vga,r' 'vga,reset'
    offers 'faults --model power,vga16,' 'power,vga16,cardbus power,vga16,ide power,vga16,isa power,vga16,reset power,vga16,snoop power,vga16,subtractive power,vga16,unclaimed power,vga16,unnumbered power,vga16,windows'
    offers "faults --model power dump.txt ''" FILES
    offers "judge ''" ''
    offers "here ''" 'faults map dump probe words'
    offers 'here -' '--domain --from --log'
    offers 'here map -' '--domain --from --log'
    offers "here map ''" '--domain --from --log'
    offers "here --domain ''" ''
    offers "here --from ''" ''
    offers "here --log ''" FILES
    offers 'here --domain = 0000 m' 'map'
    offers "here --domain 0000 dump ''" '--from --log'
    offers "explain ''" 'here show check faults map size plan settle probe json picture explain version'
    offers "explain check ''" ''
    offers "version ''" ''
    offers "json ''" 'show check faults map plan settle'
    offers "json s" 'show settle'
    offers "json probe ''" ''
    offers "json json ''" ''
    offers "json faults ''" FILES
    offers "json faults dump.txt probe.txt --m" '--model'
else
    echo 'skipped: what bash offers'
fi

quiet 'zsh takes its completion' zsh -n $names/_pciplan
# fish keeps what it likes in these folders
HOME=$room/home XDG_CONFIG_HOME=$room/home XDG_DATA_HOME=$room/home
export HOME XDG_CONFIG_HOME XDG_DATA_HOME
quiet 'fish takes its completion' fish --no-execute $names/pciplan.fish

echo "$passed passed, $failed failed"
[ "$failed" -eq 0 ]
